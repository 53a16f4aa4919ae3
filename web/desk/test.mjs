// Tests of the page's own logic, without a browser: node test.mjs WASM PAGE, the module and desk.html over it. Last line: 'N passed, M failed'.
import assert from 'node:assert/strict';
import { createHash } from 'node:crypto';
import { readFileSync } from 'node:fs';
import { dirname, join } from 'node:path';
import { fileURLToPath } from 'node:url';
import vm from 'node:vm';
import { BOOK_WORDS, MEANINGS, load } from '../wanlopheng.mjs';
import * as books from './book.mjs';
import { greekOf, judge, RULES, screenOf, shown } from './judge.mjs';
import { arranged, cell, cellsOf, counts, csv, differs, namesOf, row, ROW_HEAD, told } from './lists.mjs';
import { Contents, SOUNDNESS_RULES } from './table.mjs';
import { work } from './worker.mjs';

const [, , wasm, file] = process.argv;
const root = join(dirname(fileURLToPath(import.meta.url)), '../..');
const read = (path) => readFileSync(join(root, path));
const tests = [];
const test = (what, job) => tests.push([what, job]);
const module = readFileSync(wasm);
const html = readFileSync(file, 'utf8');

async function opened(path = 'data/full.tab', options = {}) {
    const library = await load(module);
    const { table } = library.table(read(path));
    const groups = read(path.replace('.tab', '.groups')).toString().trim().split('\n');
    return { library, table, contents: new Contents(table.words), groups, options };
}
const hex = (text) => text.split(' ').map((w) => parseInt(w, 16));
const of = (text) => String.fromCodePoint(...hex(text));

test('an accepted name', async () => {
    const desk = await opened();
    const found = judge(desk, 'Nick™.🧑‍💻Ñ.жук');
    assert.equal(found.form, 'nicktm.🧑‍💻ñ.жук');
    assert.deepEqual(found.labels.map((l) => l.kind), ['ASCII', 'Latin', 'Cyrillic']);
    assert.match(found.hash, /^0x[0-9a-f]{64}$/);
    assert.deepEqual(found.tokens.map(({ kind, start, end }) => [kind, start, end]), [['text', 0, 5], ['emoji', 6, 9], ['text', 9, 10], ['text', 11, 14]]);
    const [n, , , , tm] = found.tokens[0].parts;
    assert.deepEqual([n.how, n.to, tm.how, tm.to], ['mapped', [0x6e], 'mapped', [0x74, 0x6d]]);
    assert.deepEqual(found.tokens[1].parts.map((p) => p.how), ['emoji']);
    assert.deepEqual(found.tokens[1].output.map((o) => o.escaped), [false, true, false]);
    assert.equal(found.changed, true);
    assert.deepEqual(found.blanks, { front: 0, back: 0, without: 'Nick™.🧑‍💻Ñ.жук' });
    assert.deepEqual(judge(desk, '𓆏.ñ.a').labels.map((l) => [l.kind, l.restricted]), [['Egyp', true], ['Latin', false], ['ASCII', null]]);
    assert.equal(judge(desk, '🧑‍💻').labels[0].kind, 'emoji alone');
    assert.deepEqual(judge(desk, '').labels, []);
});

test('the screen form', async () => {
    const desk = await opened();
    const asked = screenOf({ ...desk, table: { screen: (name, options) => [name, options] }, options: { restrict: true } }, 'x');
    assert.deepEqual(asked, ['x', { restrict: true, greek: 1 }]);
    assert.deepEqual(judge(desk, '👨‍❤‍👨').screen.codepoints, hex('1F468 200D 2764 FE0F 200D 1F468'));
    assert.equal(judge(desk, 'ξδ.aξ').screen.form, 'ξδ.aΞ');
    // A table without names of its groups: Greek is the first group with alpha; with names of which none is Greek, and with no alpha, none.
    for (const path of ['data/full.tab', 'data/names.tab']) {
        const named = await opened(path);
        assert.equal(greekOf({ ...named, groups: [] }), greekOf(named), path);
        assert.equal(named.groups[greekOf(named)], 'Greek');
    }
    assert.equal(judge({ ...desk, groups: [] }, 'ξδ.aξ').screen.form, 'ξδ.aΞ');
    assert.equal(greekOf({ ...desk, groups: ['Latin'] }), desk.contents.groups.length);
    assert.equal(greekOf({ groups: [], contents: { groups: [1, 2], groupsOf: () => [] } }), 2);
});

test('ignored characters count to a token, also before an emoji', async () => {
    const desk = await opened();
    const how = (text) => judge(desk, text).tokens.map((t) => [t.kind, t.start, t.end, t.parts.map((p) => p.how).join(' ')]);
    assert.deepEqual(how('a\u00ad'), [['text', 0, 2, 'kept ignored']]);
    assert.deepEqual(how('\u00ad💩\u00ad'), [['emoji', 0, 3, 'ignored emoji ignored']]);
});

// Each refusal that a typed name can have, with its place.
const REFUSED = [
    ['x'.repeat(16385), 3, null], ['a\ud800b', 4, [1, 2]], ['nıck', 5, [1, 2]], ['a..b', 6, [2, 2]], ['ab.' + of('21000').repeat(4097), 7, [3, 4100]],
    ['a'.repeat(4097), 7, [0, 4097]], ['x.a_', 8, [2, 4]], ['xn--', 9, [0, 4]], ["a.b'", 10, [2, 4]], ['💩\u0301', 11, [0, 2]], ['aж', 12, [0, 2]],
    ['\u0645\u0610\u0610', 13, [0, 3]], ['0х', 14, [0, 2]],
];

test('refusals in words, with their places', async () => {
    const desk = await opened();
    for (const [name, number, place] of REFUSED) {
        const found = judge(desk, name);
        assert.deepEqual([found.accepted, found.number], [false, number], name.slice(0, 20));
        assert.ok(RULES[number][0].endsWith('.') && found.rule === RULES[number][0]);
        if (place) assert.deepEqual([found.start, found.end], place, name.slice(0, 20));
        else assert.equal(found.label, null);
    }
    const mixed = judge(desk, 'aжb');
    assert.deepEqual(mixed.characters.map((c) => c.codepoint).toSorted((a, b) => a - b), [0x61, 0x62, 0x436]);
    assert.ok(mixed.characters.find((c) => c.codepoint === 0x436).groups.includes('Cyrillic'));
    // The groups are those of the mapped, composed text: no keycap's digit, no accent by itself.
    assert.deepEqual(judge(desk, '1️⃣E\u0301ж').characters.map((c) => c.codepoint).toSorted((a, b) => a - b), [0xe9, 0x436]);
    const alike = judge(desk, '0х');
    assert.ok(alike.groups.includes('Latin'));
    assert.deepEqual(alike.alike.map((a) => a.codepoint), [0x445]);
    assert.ok(alike.alike[0].alike.includes(0x78));
    const rare = await opened('data/full.tab', { restrict: true });
    assert.deepEqual([judge(rare, 'a.𓆏').number, judge(rare, 'a.𓆏').label], [17, 1]);
    assert.deepEqual(Object.keys(RULES).filter((n) => !(n in MEANINGS)), []);
});

test('blanks around a name are said and not taken off', async () => {
    const desk = await opened();
    const found = judge(desk, ' \tnick.eth\n');
    assert.deepEqual([found.number, found.place, found.blanks], [5, 0, { front: 2, back: 1, without: 'nick.eth' }]);
    assert.equal(judge(desk, found.blanks.without).accepted, true);
});

test('what cannot be seen stands as a number', async () => {
    const { contents } = await opened();
    const pieces = (text) => shown(hex(text)).map((p) => (p.number ? `[${p.text}]` : p.text)).join('');
    assert.equal(pieces('61 200B 62'), 'a[U+200B]b');
    assert.equal(pieces('301 61 301'), '[U+0301]a\u0301');
    assert.equal(pieces('61 2E 301'), 'a.[U+0301]');
    assert.equal(pieces('202E 61 20'), '[U+202E]a[U+0020]');
    assert.equal(pieces('1F468 200D 1F4BB'), '👨‍💻');
    assert.equal(pieces('61 200D'), 'a[U+200D]');
    assert.equal(pieces('4E00 200D 4E8C'), '一[U+200D]二');
    assert.equal(pieces('627 200D 628'), '\u0627[U+200D]\u0628');
    assert.equal(pieces('61 FE0F 31 FE0F'), 'a[U+FE0F]1[U+FE0F]');
    assert.equal(pieces('2764 FE0F FE0F'), '❤\ufe0f[U+FE0F]');
    assert.equal(pieces('31 FE0F 20E3'), '1\ufe0f\u20e3');
    for (const whole of ['1F575 1F3FD 200D 2642 FE0F', '1F3F3 FE0F 200D 1F308', '1F44D 1F3FD 200D 1F44D', '1F3F4 E0067 E0062 E0065 E006E E0067 E007F']) assert.equal(pieces(whole), of(whole));
    assert.equal(pieces('61 E0067 E007F 1F3F4 E0067'), 'a[U+E0067][U+E007F]🏴[U+E0067]');
    assert.equal(pieces('1F3F4 E0067 E007F E0067 E007F'), `${of('1F3F4 E0067 E007F')}[U+E0067][U+E007F]`);
    assert.equal(pieces('D800 110000'), '[U+D800][U+110000]');
    assert.deepEqual(shown([0x61, 0x200d, 0x62], contents).map((p) => p.number), [false, true, false]);
});

test('nothing of a name stays in the module when the field is cleared', async () => {
    const desk = await opened();
    judge(desk, 'a');
    const before = Buffer.from(desk.library.memory.buffer.slice(0));
    for (const name of ['Nick.ETH', 'ñandú.🧑‍💻', '한국어.жук', '一二三'.repeat(100), 'a_', 'nıck', '0х', 'aж', ' x ', 'e\u0301\u0301']) {
        judge(desk, name);
        const after = Buffer.from(desk.library.memory.buffer);
        assert.ok(after.subarray(0, before.length).equals(before) && after.subarray(before.length).every((b) => b === 0), name);
    }
});

test('lists: names, rows, order, filter, CSV', async () => {
    const desk = await opened();
    assert.deepEqual(namesOf('\ufeffa\r\nb\n\nc\n'), ['a', 'b', '', 'c']);
    assert.deepEqual(namesOf(''), []);
    const rows = ['B', 'a_', 'A', 'c'].map((name, i) => row(desk, name, i));
    assert.deepEqual(arranged(rows, { by: 'form' }).map((r) => r.name), ['a_', 'A', 'B', 'c']);
    assert.deepEqual(arranged(rows, { by: 'name', down: true }).map((r) => r.name), ['c', 'a_', 'B', 'A']);
    assert.deepEqual(arranged(rows, { number: 8 }).map((r) => r.name), ['a_']);
    assert.deepEqual(counts(rows), [[0, 3], [8, 1]]);
    assert.equal(csv(ROW_HEAD, [cellsOf(rows[1])]), 'line,name,answer,normal form,codepoints,refusal,place,meaning\r\n2,a_,refused,,,8,0,a low line after another character\r\n');
    for (const bad of ['=1+1', '+1', '-1', '@x', '\t=1', '\r=1']) assert.equal(cell(bad), `"'${bad}"`);
    assert.deepEqual([cell('a,b'), cell('a"b'), cell('plain'), cell(7)], ['"a,b"', '"a""b"', 'plain', '7']);
    assert.ok(!differs(rows[0], rows[0]) && differs(rows[0], rows[1]));
    assert.equal(told(rows[1]), 'refusal 8 at 0: a low line after another character');
});

test('the jobs of the worker', async () => {
    const [full, small] = [(await opened()).table.words, (await opened('data/names.tab')).table.words];
    const names = Array.from({ length: 250 }, (_, i) => (i % 50 === 7 ? '🛖' : `N${i}`));
    const said = [];
    await work({ job: 'names', module, tables: [full], names, options: {} }, (p) => said.push(p));
    assert.deepEqual(said.map((p) => p.done), [100, 200, 250]);
    assert.deepEqual(said.flatMap((p) => p.rows)[249].form, 'n249');
    const found = [];
    await work({ job: 'compare', module, tables: [full, small], names, options: {} }, (p) => found.push(...p.rows));
    assert.deepEqual(found.map((r) => [r.index, r.first.accepted, r.second.number]), [7, 57, 107, 157, 207].map((i) => [i, true, 5]));
    assert.deepEqual(await work({ job: 'soundness', module, tables: [small] }), { sound: true });
    const broken = Uint32Array.from(small);
    broken[1] = 0xd800;
    broken[2] = 0xd800;
    assert.deepEqual(await work({ job: 'soundness', module, tables: [broken] }), { sound: false, rule: 1 });
    assert.equal(SOUNDNESS_RULES.length, 9);
});

test('the contents of a table', async () => {
    const { contents, table } = await opened();
    assert.equal(contents.sections.reduce((sum, s) => sum + s.words + 1, 0), table.size);
    assert.deepEqual([contents.fate(0x61).how, contents.fate(0x41).to, contents.fate(0xad).how, contents.fate(0x131).how], ['kept', [0x61], 'ignored', 'disallowed']);
    assert.ok(contents.groupsOf(0x61).includes(0));
    assert.deepEqual(contents.lookalikes(0x31), []);
    assert.ok(contents.groups.every(({ list }) => list === null));
});

test('the contents of a table with lists of sequences', () => {
    // Ten empty sections, exclusions with their record; three groups, the first two with lists; three empty sections.
    const groups = [6, 2, 0x61, 0x62, 2, 2, 0x61, 0x300, 3, 0x62, 0x300, 0x301, 7, 0, 0, 1, 2, 0x63, 0x63];
    const contents = new Contents(Uint32Array.from([...Array(8).fill(0), 1, 0, 0, groups.length, ...groups, 0, 0, 0]));
    assert.deepEqual(contents.groups.map((g) => g.list), [[[0x61, 0x300], [0x62, 0x300, 0x301]], [], null]);
    assert.deepEqual(contents.groups.map((g) => [g.restricted, g.whitelisted]), [[false, true], [true, true], [true, false]]);
    assert.deepEqual([contents.groupsOf(0x62), contents.groupsOf(0x63), contents.groupsOf(0x300)], [[0], [2], []]);
});

test('payee books: dumps, damage, what a reset leaves', async () => {
    const desk = await opened();
    const book = desk.table.book();
    book.words[3] = 0xabcdef01;
    const account = books.accountOf('0x0102');
    assert.deepEqual(account, [0, 0, 0, 0, 0, 0, 0, 0x102]);
    assert.deepEqual([books.accountOf(''), books.accountOf('xyz'), books.accountOf('1'.repeat(65))], [null, null, null]);
    book.save('Nick.ETH', account);
    book.save('жук', account);
    const dump = (order) => {
        const view = new DataView(new ArrayBuffer(4 * BOOK_WORDS));
        book.words.forEach((w, i) => view.setUint32(4 * i, w, order === 'little'));
        return new Uint8Array(view.buffer);
    };
    for (const order of ['little', 'big']) {
        assert.deepEqual(books.ordersOf(dump(order)), [order]);
        assert.deepEqual(books.wordsOfDump(dump(order), order), book.words);
    }
    assert.deepEqual([books.ordersOf(new Uint8Array(4 * BOOK_WORDS)), books.ordersOf(new Uint8Array(5))], [['little', 'big'], []]);
    assert.deepEqual(books.filed(book.words).map((s) => [s.slot, s.form.length]), [[0, 8], [1, 3]]);
    assert.equal(books.accountText(books.filed(book.words)[0].account), '0102'.padStart(64, '0'));
    assert.deepEqual(books.damage(book.words), []);
    // What is wrong is found exactly where the engine answers 41.
    const at = (slot) => books.FRONT + slot * books.SLOT;
    for (const [change, slot, word] of [
        [(w) => (w[at(5)] = 256), 5, at(5)], [(w) => (w[at(0) + 200] = 1), 0, at(0) + 200], [(w) => (w[at(7) + 256] = 1), 7, at(7) + 256],
        [(w) => w.copyWithin(at(9), at(0), at(1)), 9, at(9)],
    ]) {
        const words = Uint32Array.from(book.words);
        change(words);
        assert.deepEqual(books.damage(words).map((d) => [d.slot, d.at]), [[slot, word]]);
        assert.equal(desk.table.book(words).find('a').refusal.number, 41);
    }
    const before = Uint32Array.from(book.words);
    book.forget('NICK.eth');
    assert.deepEqual(books.changes(before, book.words).map((c) => [c.at, c.after.length]), [[at(0), 9], [at(0) + 263, 1]]);
    book.reset();
    assert.deepEqual([books.leftOver(book.words), book.words[3]], [[], 0xabcdef01]);
    assert.deepEqual(books.damage(new Uint32Array(5))[0].slot, null);
});

test('payees that another table would file differently', async () => {
    const desk = await opened();
    const small = await opened('data/names.tab');
    const book = desk.table.book();
    book.save('nick', [1, 2, 3, 4, 5, 6, 7, 8]);
    book.save('🛖', [1, 2, 3, 4, 5, 6, 7, 8]);
    assert.deepEqual(books.refiled(small, book.words), { accepted: true, entries: [{ slot: 1, number: 5, old: [0x1f6d6], now: null }] });
    book.words[books.FRONT + 1] = 0x4e;
    assert.deepEqual(books.refiled(desk, book.words).entries, [{ slot: 0, number: 0, old: [0x4e, 0x69, 0x63, 0x6b], now: [0x6e, 0x69, 0x63, 0x6b] }]);
    assert.equal(books.refiled(desk, new Uint32Array(3)).refusal.number, 40);
});

test('the page: its policy, its hashes, no way outside', () => {
    const policy = html.match(/http-equiv="Content-Security-Policy" content="([^"]*)"/)[1];
    const rules = Object.fromEntries(policy.split('; ').map((rule) => [rule.split(' ')[0], rule.split(' ').slice(1)]));
    assert.deepEqual(Object.keys(rules), ['default-src', 'script-src', 'style-src', 'worker-src', 'base-uri', 'form-action']);
    assert.deepEqual([rules['default-src'], rules['worker-src'], rules['base-uri'], rules['form-action']], [["'none'"], ['blob:'], ["'none'"], ["'none'"]]);
    const hash = (text) => `'sha256-${createHash('sha256').update(text).digest('base64')}'`;
    const scripts = [...html.matchAll(/<script(?: id="engine")?>([^]*?)<\/script>/g)].map(([, body]) => body);
    const styles = [...html.matchAll(/<style>([^]*?)<\/style>/g)].map(([, body]) => body);
    assert.deepEqual(rules['script-src'], [...scripts.map(hash), "'wasm-unsafe-eval'"]);
    assert.deepEqual(rules['style-src'], styles.map(hash));
    const worker = html.match(/<script type="text\/plain" id="worker">([^]*?)<\/script>/)[1];
    for (const source of [scripts.join('\n'), scripts[0] + worker]) new vm.Script(source);
    const text = html.replace(/<script type="text\/plain" id="(?:module|table)">[^]*?<\/script>/g, '');
    assert.doesNotMatch(text, /\bhttps?:|\bwss?:|\bftp:|\bfetch\(|\bimport\(|XMLHttpRequest|sendBeacon|EventSource|WebSocket|RTCPeer|localStorage|sessionStorage|indexedDB|document\.cookie|window\.open|location\.(?:href|assign|replace)|\bstyle="|\bon\w+="/);
    for (const [, target] of text.matchAll(/\b(?:href|src|action)="([^"]*)"/g)) assert.match(target, /^#/);
    assert.doesNotMatch(text, /innerHTML|outerHTML|insertAdjacentHTML|document\.write|\beval\(|new Function/);
});

test('the page: every field has a label and keeps its text to itself', () => {
    const body = html.replace(/<script[^]*?<\/script>/g, '');
    for (const [field, , id] of body.matchAll(/<(textarea|input|select)\b[^>]*\bid="([\w-]+)"[^>]*>/g)) {
        const within = new RegExp(`<label[^>]*>[^<]*<input[^>]*\\bid="${id}"`).test(body);
        assert.ok(body.includes(`for="${id}"`) || within, id);
        assert.match(field, /autocomplete="off"/, id);
        if (field.startsWith('<textarea')) assert.match(field, /spellcheck="false"/, id);
    }
    assert.ok([...body.matchAll(/aria-live="polite"/g)].length >= 5);
    const ids = [...body.matchAll(/\bid="([\w-]+)"/g)].map(([, id]) => id);
    assert.equal(new Set(ids).size, ids.length);
});

test('light and dark: every text has enough contrast', () => {
    const css = html.match(/<style>([^]*?)<\/style>/)[1];
    const light = (colour) => {
        const [r, g, b] = [1, 3, 5].map((i) => parseInt(colour.slice(i, i + 2), 16) / 255).map((v) => (v <= 0.04045 ? v / 12.92 : ((v + 0.055) / 1.055) ** 2.4));
        return 0.2126 * r + 0.7152 * g + 0.0722 * b;
    };
    const contrast = (a, b) => (Math.max(light(a), light(b)) + 0.05) / (Math.min(light(a), light(b)) + 0.05);
    const themes = [...css.matchAll(/:root \{([^}]*)\}/g)].map(([, body]) => Object.fromEntries([...body.matchAll(/--([\w-]+): (#\w{6})/g)].map(([, n, c]) => [n, c])));
    assert.equal(themes.length, 2);
    for (const t of themes) {
        for (const ink of ['ink', 'link', 'good', 'bad']) for (const paper of ['paper', 'soft']) assert.ok(contrast(t[ink], t[paper]) >= 4.5, `${ink} on ${paper}: ${contrast(t[ink], t[paper])}`);
        assert.ok(contrast(t['mark-ink'], t.mark) >= 4.5 && contrast(t.line, t.paper) >= 3);
    }
});

let failed = 0;
for (const [what, job] of tests) {
    try {
        await job();
        console.log(`ok: ${what}`);
    } catch (fault) {
        failed += 1;
        console.log(`FAILED: ${what}\n${fault.stack}`);
    }
}
console.log(`${tests.length - failed} passed, ${failed} failed`);
process.exit(failed === 0 ? 0 : 1);
