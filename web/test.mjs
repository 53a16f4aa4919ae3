// The JavaScript module at work: node web/test.mjs WASM SMALL, the module and one with too small a stack. tools/targets builds both and runs this.
// Last line: 'N passed, M failed'.
import assert from 'node:assert/strict';
import { readFileSync } from 'node:fs';
import * as wanlopheng from './wanlopheng.mjs';

const { load, MEANINGS, Trap } = wanlopheng;
const read = (path) => readFileSync(new URL(`../${path}`, import.meta.url));
const [, , wasm, small] = process.argv;
const tests = [];
const test = (what, job) => tests.push([what, job]);

const fresh = () => load(readFileSync(wasm));
const file = read('data/full.tab');
const opened = async () => {
    const library = await fresh();
    const unpacked = library.table(file);
    assert.equal(unpacked.accepted, true);
    return { library, table: unpacked.table };
};
const form = (given) => (given.accepted ? given.form : [given.refusal.number, given.refusal.place]);
const hex = (bytes) => Buffer.from(bytes).toString('hex');

test('names, labels and what they are refused for', async () => {
    const { table } = await opened();
    assert.deepEqual(table.soundness(), { sound: true });
    assert.equal(table.layoutFault(), false);
    assert.deepEqual(table.normalise('Nick.ETH'), { accepted: true, form: 'nick.eth', codepoints: [110, 105, 99, 107, 46, 101, 116, 104], labels: 2 });
    assert.deepEqual(table.normalise('nick.a_'), {
        accepted: false,
        refusal: { number: 8, place: 1, text: 'a low line after another character' },
    });
    assert.equal(form(table.normalise('')), '');
    assert.equal(form(table.normalise('Ñandú.🧑‍💻')), 'ñandú.🧑‍💻');
    assert.deepEqual(form(table.normalise('a\ud800')), [4, 1], 'a surrogate alone');
    assert.deepEqual(form(table.normalise('x'.repeat(16385))), [3, 0]);
    assert.deepEqual(form(table.normalise('nıck')), [5, 1]);
    assert.deepEqual(form(table.normalise('0х')), [14, 0]);
    assert.deepEqual(form(table.normalise('𓆏', { restrict: true })), [17, 0]);
    assert.equal(form(table.normalise('𓆏')), '𓆏');
    assert.deepEqual(table.label('ETH'), { accepted: true, form: 'eth', codepoints: [101, 116, 104], kind: 'ascii' });
    assert.deepEqual(table.label('é'), { accepted: true, form: 'é', codepoints: [0xe9], kind: 'group', group: 0, restricted: false });
    assert.equal(table.label('🧑‍💻').kind, 'emoji');
    assert.equal(form(table.normaliseBytes(Buffer.from('Nick.ETH'))), 'nick.eth');
    assert.deepEqual(form(table.normaliseBytes(Uint8Array.of(0x61, 0xff))), [30, 1]);
});

test('the other calls', async () => {
    const { library, table } = await opened();
    const eth = table.namehash('ETH');
    assert.equal(hex(eth.node), '93cdeb708b7545dc668eb9280176169d1c33cfd8ed6f04690a0bcc88a93fc4ae');
    assert.equal(eth.form, 'eth');
    assert.deepEqual(form(table.namehash('a_')), [8, 0]);
    assert.equal(hex(library.keccak256(Buffer.from('abc'))), '4e03657aea45a94fc7d47ba826c8d667c0d1e6e33a64a036ec44f58fa12d6c45');
    assert.equal(hex(library.sponge().absorb(Buffer.from('a')).absorb(Buffer.from('bc')).digest()), hex(library.keccak256(Buffer.from('abc'))));
    assert.deepEqual(library.trim(' a b\n'), { start: 1, length: 3, text: 'a b' });
    assert.equal(library.readUtf8(Buffer.from('ñ🧑')).text, 'ñ🧑');
    assert.deepEqual(form(library.readUtf8(Uint8Array.of(0x61, 0xc0))), [30, 1]);
    assert.deepEqual(library.writeUtf8('ñ🧑').bytes, Uint8Array.from(Buffer.from('ñ🧑')));
    assert.deepEqual(form(library.writeUtf8('a\udc00')), [4, 1]);
    assert.equal(form(table.nfd('é')), 'e\u0301');
    assert.equal(form(table.nfc('e\u0301')), 'é');
    assert.deepEqual(table.group('ab'), { accepted: true, found: true, group: 0, restricted: false, whitelisted: true, asked: 2 });
    assert.equal(table.group('aж').found, false);
    const emoji = table.emoji('👨‍❤️‍👨a');
    assert.deepEqual([emoji.found, emoji.taken, emoji.selectors], [true, 6, 1]);
    assert.deepEqual(table.emoji('a'), { accepted: true, found: false });
    const broken = library.tableOfWords([1, 2, 3]);
    assert.deepEqual([broken.layoutFault(), broken.soundness(), form(broken.normalise('a'))], [true, { sound: false, rule: 0 }, [1, 0]]);
    assert.deepEqual(form(library.table(file.subarray(1))), [20, 0]);
    assert.deepEqual(form(library.table(file.subarray(0, 1000))), [21, 0]);
    assert.deepEqual(table.report('Ñ🧑‍💻').lines, ['text 0 1 F1', 'emoji 1 4 1F9D1 {200D} 1F4BB']);
    assert.deepEqual(form(table.report('a_')), [8, 0]);
    assert.deepEqual(table.screen('-ξ1\u20e3', { greek: 1 }), { accepted: true, form: '-Ξ1\ufe0f\u20e3', codepoints: [0x2d, 0x39e, 0x31, 0xfe0f, 0x20e3], labels: 1 });
    assert.equal(form(table.screen('ξδ.aξ', { greek: 1 })), 'ξδ.aΞ');
    assert.equal(form(table.screen('ξδ.aξ')), 'Ξδ.aΞ');
    assert.equal(form(table.screen('')), '');
    assert.deepEqual(form(table.screen('a_', { greek: 1 })), [8, 0]);
    assert.deepEqual(form(table.screen('𓆏', { restrict: true })), [17, 0]);
    assert.equal(table.screen('\u2764'.repeat(4096)).codepoints.length, 8192);
    assert.deepEqual(form(table.screen('x'.repeat(16385))), [3, 0]);
    assert.deepEqual(table.respelled('0х').groups.slice(0, 2), [0, 3]);
    assert.deepEqual(table.respelled('жук'), { accepted: true, groups: [] });
    assert.deepEqual(form(table.respelled('a_')), [8, 0]);
});

test('the payee book', async () => {
    const { table } = await opened();
    const book = table.book();
    const account = [1, 2, 3, 4, 5, 6, 7, 0xffffffff];
    assert.deepEqual(form(book.find('a')), [44, 0]);
    assert.deepEqual(book.save('Nick.ETH', account), { accepted: true });
    assert.deepEqual(book.find('nick.eth'), { accepted: true, account });
    assert.deepEqual(table.book(book.words).find('NICK.eth'), { accepted: true, account }, 'from the words of the other');
    assert.deepEqual(form(book.save('', account)), [42, 0]);
    assert.deepEqual(book.moved(), { accepted: true, slots: [] });
    book.words[16 + 1] = 0x4e;
    assert.deepEqual(book.moved(), { accepted: true, slots: [{ slot: 0, number: 0 }] });
    book.words[16 + 1] = 0x6e;
    assert.deepEqual(book.forget('nick.eth'), { accepted: true });
    assert.ok(book.words.every((w) => w === 0));
    book.words[16 + 5] = 7;
    assert.deepEqual(form(book.find('a')), [41, 0]);
    assert.deepEqual(book.reset(), { accepted: true });
});

// Every call on names of every kind: afterwards each byte of the memory is what it was before, so that nothing of a name stands there.
test('nothing of a name stays in the memory, the stack included', async () => {
    const { library, table } = await opened();
    const names = ['Nick.ETH', 'ñandú.🧑‍💻', '👨‍❤️‍👨'.repeat(3), 'é'.repeat(300), '한국어', 'مصر', '一二三'.repeat(300), 'a_', 'nıck', '0х', 'a..b', 'e\u0301\u0301\u0301\u0301\u0301', 'a\ud800'];
    table.normalise('a');
    const bytes = () => Buffer.from(library.memory.buffer);
    const book = table.book();
    let before = Buffer.from(bytes());
    for (const name of names) {
        const calls = [
            () => table.normalise(name), () => table.label(name), () => table.namehash(name), () => table.normaliseBytes(Buffer.from(name)),
            () => table.nfd(name), () => table.nfc(name), () => table.group(name), () => table.emoji(name), () => library.trim(name),
            () => library.writeUtf8(name), () => library.readUtf8(Buffer.from(name)), () => library.keccak256(Buffer.from(name)),
            () => book.save(name, [1, 2, 3, 4, 5, 6, 7, 8]), () => book.find(name), () => book.forget(name), () => table.soundness(),
            () => table.report(name), () => table.screen(name), () => table.respelled(name), () => book.moved(), () => book.reset(),
            () => library.sponge().absorb(Buffer.from(name)).digest(), () => table.normalise(name, { restrict: true }),
        ];
        for (const call of calls) {
            call();
            const after = bytes();
            if (after.length > before.length) before = Buffer.concat([before, Buffer.alloc(after.length - before.length)]);
            assert.ok(after.equals(before), `${name}: ${call}`);
        }
    }
    assert.ok(before.some((b) => b !== 0), 'the table is there');
    // What is lent is in that memory during a call, and what the call leaves on its stack before it is wiped: the comparison would see it.
    library.run(null, (calls, lent) => {
        lent.words([0x4e00, 0x4e8c]);
        assert.ok(bytes().includes(Buffer.from(Uint32Array.of(0x4e00, 0x4e8c).buffer)));
        calls.wanlopheng_keccak256(lent.place(32), lent.bytes(Buffer.from('a name on the stack')), 19);
        assert.ok(bytes().subarray(0, calls.__stack_high.value).some((b) => b !== 0), 'the stack was used');
    });
    assert.ok(bytes().equals(before));
});

test('two tables by turns, and names longer than any buffer', async () => {
    const { library, table } = await opened();
    const other = library.table(read('data/names.tab')).table;
    assert.notEqual(other.size, table.size);
    for (let i = 0; i < 3; i++) {
        assert.equal(form(table.normalise('🛖')), '🛖');
        assert.deepEqual(form(other.normalise('🛖')), [5, 0]);
        assert.deepEqual(form(other.normalise('a'.repeat(300000))), [3, 0]);
    }
});

test('an instance that trapped is wiped and thrown away', async () => {
    const library = await load(readFileSync(small));
    const table = library.table(file).table;
    table.emoji('a');
    const { memory } = library;
    assert.throws(() => table.soundness(), Trap);
    assert.ok(Buffer.from(memory.buffer).every((b) => b === 0), 'wiped');
    assert.equal(library.memory, null);
    assert.equal(table.emoji('👨').found, true, 'the next call has a new instance');
    assert.notEqual(library.memory, memory);
});

test('the meanings and sizes are those of the headers', () => {
    const text = read('include/wanlopheng_text.h').toString();
    const due = Object.fromEntries([...text.matchAll(/case (\d+): return "(.*)";/g)].map(([, n, t]) => [n, t]));
    delete due[0];
    assert.deepEqual({ ...MEANINGS }, due);
    const header = read('include/wanlopheng.h').toString();
    for (const name of ['INPUT_MOST', 'ANSWER_WORDS', 'SCREEN_WORDS', 'WORK_WORDS', 'TABLE_WORDS', 'BOOK_WORDS', 'MOVED_WORDS', 'GROUPS', 'REPORT_BYTES']) {
        assert.equal(wanlopheng[name], Number(header.match(new RegExp(`WANLOPHENG_${name} (\\d+)`))[1]), name);
    }
});

test('every call of the header is reached, and the types name every export', () => {
    const header = read('include/wanlopheng.h').toString().replace(/\/\*.*?\*\//gs, '');
    const calls = [...header.matchAll(/\b(wanlopheng_\w+)\([^)]*\);/g)].map(([, name]) => name);
    assert.ok(calls.length > 20);
    const source = read('web/wanlopheng.mjs').toString();
    const left = calls.filter((name) => !new RegExp(`\\b${name}\\b`).test(source));
    assert.deepEqual(left, []);
    const types = read('web/wanlopheng.d.ts').toString();
    for (const name of Object.keys(wanlopheng)) assert.match(types, new RegExp(`export declare (?:class|const|function) ${name}\\b`), name);
    for (const of of [wanlopheng.Library, wanlopheng.Table, wanlopheng.Book, wanlopheng.Sponge]) {
        const [, body] = types.match(new RegExp(`class ${of.name} \\{(.*?)\\n\\}`, 's'));
        for (const name of Object.getOwnPropertyNames(of.prototype)) {
            if (!['constructor', 'run'].includes(name)) assert.match(body, new RegExp(`\\b${name}\\b`), `${of.name}.${name}`);
        }
    }
});

let failed = 0;
for (const [what, job] of tests) {
    try {
        await job();
        console.log(`ok: ${what}`);
    } catch (fault) {
        failed += 1;
        console.log(`FAILED: ${what}\n${fault.stack}`);
    }
}
console.log(`${tests.length - failed} passed, ${failed} failed`);
process.exit(failed === 0 ? 0 : 1);
