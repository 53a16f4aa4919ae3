// The page itself: what is typed, chosen and dropped goes to the engine, and what it answers is shown. Text is set as text, never as markup.
import { BOOK_WORDS, MEANINGS, load, textOf } from '../wanlopheng.mjs';
import { accountOf, accountText, changes, damage, filed, FRONT, leftOver, ordersOf, refiled, wordsOfDump } from './book.mjs';
import { hex, judge, numbered, RULES, screenOf, shown } from './judge.mjs';
import { arranged, cellsOf, counts, csv, DIFFERENCE_HEAD, namesOf, ROW_HEAD, told } from './lists.mjs';
import { Contents, SOUNDNESS_RULES } from './table.mjs';

const $ = (id) => document.getElementById(id);

/** An element: its attributes, and its children, which are elements or text. */
function h(tag, attributes = {}, ...children) {
    const made = document.createElement(tag);
    for (const [name, value] of Object.entries(attributes)) {
        if (name.startsWith('on')) made.addEventListener(name.slice(2), value);
        else if (value === true) made.setAttribute(name, '');
        else if (value !== false && value !== null) made.setAttribute(name, value);
    }
    made.append(...children.flat(Infinity).filter((c) => c !== null && c !== undefined));
    return made;
}

function fill(id, ...children) {
    $(id).replaceChildren(...children.flat(Infinity).filter((c) => c !== null && c !== undefined));
}

const bytesOf = (base64) => Uint8Array.from(atob(base64.trim()), (c) => c.charCodeAt(0));

/** What the page has: the engine, the tables, and the book to try. */
export const state = { library: null, module: null, tables: [], try: null, dump: null, list: null, difference: null, check: () => {}, due: null };

/** The table in use, with what `judge` needs. */
function desk(number = Number($('which').value)) {
    return { library: state.library, options: { restrict: $('restrict').checked }, ...state.tables[number] };
}

// Text on the page.

const LONG = 300; // codepoints of a text that are shown

const rest = (codepoints) => (codepoints.length > LONG ? h('span', { class: 'number' }, `and ${(codepoints.length - LONG).toLocaleString('en')} more`) : null);

/** A text in which what cannot be seen stands as a number; isolated, so that its direction does not turn what stands beside it. */
function text(codepoints) {
    const { contents } = desk();
    const pieces = shown([...codepoints.slice(0, LONG)], contents).map((p) => (p.number ? h('span', { class: 'number' }, p.text) : p.text));
    return h('bdi', {}, pieces, rest(codepoints));
}

function numbers(codepoints) {
    return h('code', {}, hex(codepoints.slice(0, LONG)), rest(codepoints));
}

/** A whole name, label by label, each isolated. */
function labels(codepoints, className = null) {
    const parts = [];
    let from = 0;
    codepoints.slice(0, LONG).forEach((c, at) => {
        if (c !== 0x2e) return;
        parts.push(text(codepoints.slice(from, at)), '.');
        from = at + 1;
    });
    return h('span', { class: className, dir: 'ltr' }, parts, text(codepoints.slice(from)));
}

function copyButton(what, value) {
    return h('button', { type: 'button', 'aria-label': `Copy ${what}`, onclick: (event) => copy(event.currentTarget, value) }, 'Copy');
}

async function copy(button, value) {
    let done = true;
    try {
        await navigator.clipboard.writeText(value);
    } catch {
        const field = h('textarea', {});
        field.value = value;
        document.body.append(field);
        field.select();
        done = document.execCommand('copy');
        field.remove();
        button.focus();
    }
    button.textContent = done ? 'Copied' : 'Not copied';
    setTimeout(() => (button.textContent = 'Copy'), 1500);
}

/** A list of what is said: rows of a name and its content. */
function facts(...rows) {
    return h('dl', {}, rows.filter((r) => r !== null).map(([name, ...content]) => [h('dt', {}, name), h('dd', {}, ...content)]));
}

/** A table on the page. */
function grid(caption, head, rows) {
    const heads = head.map((cell) => (cell instanceof Element ? cell : h('th', { scope: 'col' }, cell)));
    const body = rows.map((cells) => h('tr', {}, cells.map((cell) => h('td', {}, cell))));
    return h('div', { class: 'scroll', tabindex: '0', role: 'region', 'aria-label': caption }, h('table', {}, h('caption', {}, caption), h('thead', {}, h('tr', {}, heads)), h('tbody', {}, body)));
}

function save(name, content) {
    const url = URL.createObjectURL(new Blob([content], { type: 'text/csv;charset=utf-8' }));
    h('a', { href: url, download: name }).click();
    setTimeout(() => URL.revokeObjectURL(url), 10000);
}

// A name.

const SHOWN = 200; // rows of labels and tokens
const HOW = { kept: 'kept', mapped: 'mapped to', ignored: 'ignored', disallowed: 'not allowed', emoji: 'emoji' };

function partLine(part) {
    const from = [text(part.from), ' ', numbers(part.from)];
    if (part.how === 'mapped') return h('li', {}, from, ' mapped to ', text(part.to), ' ', numbers(part.to));
    return h('li', {}, from, ` ${HOW[part.how]}`);
}

/** The parts of a token: a run of characters that were kept is one line. */
function partLines(parts) {
    const lines = [];
    for (const part of parts) {
        const last = lines.at(-1);
        if (part.how === 'kept' && last?.how === 'kept') last.from = [...last.from, ...part.from];
        else lines.push({ ...part });
    }
    return h('ul', {}, lines.map(partLine));
}

function tokenTable(found) {
    const rows = found.tokens.slice(0, SHOWN).map((t) => [t.kind, `${t.start} to ${t.end}`, text(found.input.slice(t.start, t.end)), partLines(t.parts)]);
    const more = found.tokens.length > SHOWN ? `; the first ${SHOWN} of ${found.tokens.length}` : '';
    return rows.length === 0 ? null : grid(`What was typed, token by token; places are counted from 0${more}`, ['Token', 'Places', 'Typed', 'What became of it'], rows);
}

function showAccepted(found) {
    const screen = found.screen;
    const form = found.form ?? '';
    return [
        found.codepoints.length === 0 ? h('p', {}, 'The empty name: it has no labels.') : null,
        facts(
            ['Normal form', labels(found.codepoints, 'form'), copyButton('the normal form', form)],
            ['Codepoints', numbers(found.codepoints), copyButton('the codepoints', hex(found.codepoints))],
            ['Screen form', screen.accepted ? [labels(screen.codepoints, 'form'), copyButton('the screen form', screen.form ?? '')] : `refusal ${screen.refusal.number}: ${screen.refusal.text}`],
            found.hash === null ? null : ['Hash', h('code', {}, found.hash), copyButton('the hash', found.hash)],
        ),
        found.labels.length === 0 ? null : grid('Labels', ['No.', 'Label', 'Kind', 'Rare script (restricted)', 'Codepoints'], found.labels.slice(0, SHOWN).map((l, i) => [String(i), text(l.codepoints), l.kind, l.restricted === null ? '' : l.restricted ? 'yes' : 'no', numbers(l.codepoints)])),
    ];
}

/** What was typed with the place of the refusal marked. */
function marked({ input, start, end }) {
    const from = Math.max(0, start - 60);
    const upto = Math.min(input.length, end + 60);
    const middle = end > start ? text(input.slice(start, end)) : h('span', { class: 'number' }, 'nothing');
    const parts = [labels(input.slice(from, start)), h('mark', {}, middle), labels(input.slice(Math.max(end, start), upto))];
    return h('p', { class: 'form', dir: 'ltr' }, from > 0 ? '… ' : null, parts, upto < input.length ? ' …' : null);
}

function behind(found) {
    if (found.number === 12) {
        const rows = found.characters.slice(0, 40).map(({ codepoint, groups }) => [text([codepoint]), numbered(codepoint), groups.length === 0 ? 'none' : groups.slice(0, 12).join(', ') + (groups.length > 12 ? ` and ${groups.length - 12} more` : '')]);
        return grid('The characters of the label, and the groups that have them', ['Character', 'Number', 'Groups'], rows);
    }
    if (found.number === 14) {
        const rows = found.alike.map(({ codepoint, alike }) => [text([codepoint]), numbered(codepoint), alike.slice(0, 40).map((c) => [text([c]), ` ${numbered(c)} `])]);
        return [h('p', {}, `It could be respelled in: ${found.groups.join(', ')}.`), grid('Characters that look alike', ['Character', 'Number', 'Looks like'], rows)];
    }
    if (found.number === 17) return h('button', { type: 'button', id: 'allow', onclick: allow }, 'Allow rare scripts');
    return null;
}

function allow() {
    $('restrict').checked = false;
    judgeName();
    $('restrict').focus();
}

function showRefused(found) {
    const place = found.number === 4 || found.number === 5 ? `character ${found.place}, ${numbered(found.codepoint)}, in label ${found.label}` : found.label === null ? '' : `label ${found.label}`;
    return [facts(['Refusal', `${found.number}: ${found.text}`], place === '' ? null : ['Where', `${place}, counted from 0`], ['What helps', found.help]), found.label === null ? null : marked(found), behind(found)];
}

function blankNote({ front, back, without }) {
    if (front + back === 0) return null;
    const take = () => {
        $('name').value = without;
        judgeName();
        $('name').focus();
    };
    return h('p', {}, `Blanks or line ends stand around the name: ${front} before it, ${back} behind it. `, h('button', { type: 'button', id: 'trim', onclick: take }, 'Take them off'));
}

/** Judges what is in the field, and shows it. */
function judgeName() {
    const typed = $('name').value;
    $('verdict').className = 'verdict';
    for (const id of ['verdict', 'answer', 'took']) fill(id);
    if (typed === '') return;
    const began = performance.now();
    try {
        const found = judge(desk(), typed);
        const took = performance.now() - began;
        const said = found.changed ? 'Accepted; the normal form differs from what was typed' : 'Accepted; it is its own normal form';
        $('verdict').classList.add(found.accepted ? 'accepted' : 'refused');
        fill('verdict', found.accepted ? said : `Refused (${found.number}): ${found.rule}`);
        fill('answer', blankNote(found.blanks), found.accepted ? showAccepted(found) : showRefused(found), tokenTable(found));
        fill('took', `Answered in ${took.toFixed(1)} ms, shown after ${(performance.now() - began).toFixed(1)} ms.`);
    } catch (fault) {
        fill('verdict', `The engine could not judge this: ${fault.message}`);
    }
}

/** At each key; a name of hundreds of characters, when the keys rest. */
function typedName() {
    clearTimeout(state.due);
    if ($('name').value.length <= 400) return judgeName();
    fill('verdict', 'A long name: it is judged when you stop typing.');
    state.due = setTimeout(judgeName, 150);
}

// Jobs in a worker.

/** Starts a job; `end` ends it at once. */
function start(job, tables, given, say, done) {
    const url = URL.createObjectURL(new Blob([$('engine').textContent, $('worker').textContent], { type: 'text/javascript' }));
    const worker = new Worker(url);
    const end = () => {
        worker.terminate();
        URL.revokeObjectURL(url);
    };
    worker.onmessage = ({ data }) => {
        if (data.progress) return say(data.progress);
        end();
        done(data.fault ? { fault: data.fault } : { answer: data.answer });
    };
    worker.onerror = (event) => {
        end();
        done({ fault: event.message ?? 'the worker could not be started' });
    };
    worker.postMessage({ job, module: state.module, tables: tables.map((t) => t.words), ...given });
    return end;
}

/** A job over the names of the list, with its buttons, its progress and what it says. */
function overList(prefix, job, tables, show) {
    const names = namesOf($('list').value);
    const found = { rows: [], names: names.length, done: 0, end: null };
    const finish = (said) => {
        found.end?.();
        found.end = null;
        $(`${prefix}-stop`).disabled = true;
        $(`${prefix}-go`).disabled = false;
        $(`${prefix}-progress`).hidden = true;
        $(`${prefix}-save`).disabled = found.rows.length === 0;
        fill(`${prefix}-said`, said);
        show(found);
    };
    $(`${prefix}-go`).disabled = true;
    $(`${prefix}-stop`).disabled = false;
    $(`${prefix}-save`).disabled = true;
    Object.assign($(`${prefix}-progress`), { hidden: false, max: Math.max(names.length, 1), value: 0 });
    fill(`${prefix}-answer`);
    fill(`${prefix}-said`, `${names.length.toLocaleString('en')} names`);
    $(`${prefix}-stop`).onclick = () => finish(`Stopped after ${found.done.toLocaleString('en')} of ${names.length.toLocaleString('en')} names`);
    const say = ({ done, rows }) => {
        found.rows.push(...rows);
        found.done = $(`${prefix}-progress`).value = done;
    };
    const done = ({ fault }) => finish(fault ? `It could not be done: ${fault}` : prefix === 'list' ? `${found.done.toLocaleString('en')} names judged` : `${found.rows.length.toLocaleString('en')} of ${found.done.toLocaleString('en')} names are answered otherwise`);
    found.end = start(job, tables, { names, options: desk().options }, say, done);
    return found;
}

// Many names.

/** A file of names goes into the field; one that is not UTF-8 is said to be none, and not mended. */
async function takeList(file) {
    const read = state.library.readUtf8(new Uint8Array(await file.arrayBuffer()));
    if (read.accepted) $('list').value = read.text.replace(/^\ufeff/, '');
    fill('list-said', read.accepted ? `${file.name} is read.` : `${file.name} is not read: ${RULES[30][0]} The first fault is at byte ${read.refusal.place}. ${RULES[30][1]}`);
}

const ROWS = 100; // on one page of a long table
const view = { by: 'index', down: false, number: null, page: 0 };

function showList(found) {
    if (found.rows.length === 0) return fill('list-answer');
    const rows = arranged(found.rows, view);
    const pages = Math.max(1, Math.ceil(rows.length / ROWS));
    view.page = Math.min(view.page, pages - 1);
    const turn = (to) => () => {
        view.page = to;
        showList(found);
    };
    const sorter = (title, by) => {
        const sort = view.by === by ? (view.down ? 'descending' : 'ascending') : 'none';
        const press = () => {
            Object.assign(view, { down: view.by === by && !view.down, by, page: 0 });
            showList(found);
            $(`sort-${by}`).focus();
        };
        return h('th', { scope: 'col', 'aria-sort': sort }, h('button', { type: 'button', id: `sort-${by}`, onclick: press }, title), sort === 'none' ? '' : view.down ? ' ↓' : ' ↑');
    };
    const choice = h('select', { id: 'filter', autocomplete: 'off' }, h('option', { value: '' }, `all (${found.rows.length})`), counts(found.rows).map(([number, many]) => h('option', { value: String(number), selected: view.number === number }, `${number === 0 ? 'accepted' : `${number}: ${MEANINGS[number]}`} (${many})`)));
    choice.addEventListener('change', () => {
        Object.assign(view, { number: choice.value === '' ? null : Number(choice.value), page: 0 });
        showList(found);
        $('filter').focus();
    });
    const shownRows = rows.slice(view.page * ROWS, (view.page + 1) * ROWS).map((r) => {
        const typed = Array.from(r.name, (c) => c.codePointAt(0));
        const answer = r.accepted ? labels(Array.from(r.form, (c) => c.codePointAt(0))) : r.text;
        return [String(r.index + 1), labels(typed), answer, r.accepted ? '' : `${r.number} at ${r.place}`];
    });
    fill(
        'list-answer',
        h('div', { class: 'row' }, h('label', { class: 'inline', for: 'filter' }, 'Show'), choice),
        grid('Answers', [sorter('Line', 'index'), sorter('Name', 'name'), sorter('Answer', 'form'), sorter('Refusal', 'number')], shownRows),
        h('div', { class: 'row' }, h('button', { type: 'button', disabled: view.page === 0, onclick: turn(view.page - 1) }, 'Previous'), `Page ${view.page + 1} of ${pages}`, h('button', { type: 'button', disabled: view.page === pages - 1, onclick: turn(view.page + 1) }, 'Next')),
    );
}

// A table.

function fillTables() {
    for (const id of ['which', 'first', 'second']) {
        const now = $(id).value;
        fill(id, state.tables.map(({ title }, i) => h('option', { value: String(i) }, title)));
        $(id).value = now === '' ? '0' : now;
    }
}

async function takeTable(file) {
    const bytes = new Uint8Array(await file.arrayBuffer());
    state.check(); // an earlier check that still runs
    const unpacked = state.library.table(bytes);
    fill('table-answer');
    if (!unpacked.accepted) {
        const { number, text: means } = unpacked.refusal;
        return fill('table-said', `${file.name} is not a table file (${number}: ${means}). ${RULES[number][0]} ${RULES[number][1]}`);
    }
    const words = unpacked.table.words;
    const sound = (said) => [['File', file.name], ['Version', String(bytes[0])], ['Words', words.length.toLocaleString('en')], ['Soundness', said]];
    if (unpacked.table.layoutFault()) {
        fill('table-said', `${file.name}: its words have a layout fault.`);
        return fill('table-answer', facts(...sound(`Not sound: ${SOUNDNESS_RULES[0]}`)));
    }
    const contents = new Contents(words);
    state.tables.push({ title: file.name, table: unpacked.table, words, contents, groups: [] });
    fillTables();
    $('second').value = String(state.tables.length - 1);
    const sections = grid('Sections', ['No.', 'Section', 'Words', 'Entries'], contents.sections.map((s, i) => [String(i + 1), s.name, s.words.toLocaleString('en'), s.entries.length.toLocaleString('en')]));
    fill('table-said', `${file.name}: the soundness check is running.`);
    fill('table-answer', facts(...sound('being checked')), sections);
    state.check = start('soundness', [{ words }], {}, () => {}, ({ answer, fault }) => {
        const said = fault ? `could not be checked: ${fault}` : answer.sound ? 'sound' : `Not sound, rule ${answer.rule} is broken: ${SOUNDNESS_RULES[answer.rule]}`;
        fill('table-said', `${file.name}: ${said}`);
        fill('table-answer', facts(...sound(said)), sections);
    });
    showDump();
}

function showDifference(found) {
    const cellOf = (r) => (r.accepted ? labels(Array.from(r.form, (c) => c.codePointAt(0))) : told(r));
    const rows = found.rows.slice(0, 1000).map((r) => [String(r.index + 1), labels(Array.from(r.name, (c) => c.codePointAt(0))), cellOf(r.first), cellOf(r.second)]);
    fill('compare-answer', rows.length === 0 ? null : grid('Answers that differ', DIFFERENCE_HEAD, rows), found.rows.length > 1000 ? h('p', {}, 'The first 1,000 are shown; the CSV file has all.') : null);
}

// A payee book.

/** The filed slots, with the screen forms by the table in use. */
function slotTable(caption, words) {
    const rows = filed(words).map(({ slot, form, account }) => {
        const name = textOf(form);
        const screen = name === null ? null : screenOf(desk(), name);
        return [String(slot), labels(form), screen?.accepted ? labels(screen.codepoints) : 'none: the table refuses the name', h('code', {}, accountText(account))];
    });
    return rows.length === 0 ? h('p', {}, 'No slot is filed.') : grid(caption, ['Slot', 'Name', 'Screen form', 'Account'], rows);
}

function movedTables(words) {
    return state.tables.map((table) => {
        const listed = refiled({ ...desk(), ...table }, words);
        if (!listed.accepted) return null;
        const rows = listed.entries.map(({ slot, number, old, now }) => [String(slot), labels(old), now === null ? `refused as ${number}: ${MEANINGS[number] ?? ''}` : labels(now)]);
        return rows.length === 0 ? h('p', {}, `${table.title} would file every payee as it is filed.`) : grid(`${table.title} would file these payees differently`, ['Slot', 'Filed as', 'By that table'], rows);
    });
}

function showDump() {
    if (state.dump === null) return;
    const { name, bytes } = state.dump;
    if (bytes.length !== 4 * BOOK_WORDS) {
        fill('book-answer');
        return fill('book-said', `${name} has ${bytes.length.toLocaleString('en')} bytes; the area of a payee book has ${(4 * BOOK_WORDS).toLocaleString('en')} (refusal 40).`);
    }
    const chosen = $('order').value;
    const fitting = ordersOf(bytes);
    const order = chosen || fitting[0] || 'little';
    const why = chosen ? '' : [' (neither order fits; one can be chosen)', ' (as the lengths say)', ' (both orders fit; one can be chosen)'][fitting.length];
    const words = wordsOfDump(bytes, order);
    const wrong = damage(words);
    const left = leftOver(words);
    const told41 = desk().table.book(words).find('a');
    const damaged = !told41.accepted && told41.refusal.number === 41;
    const said = damaged ? `The book is damaged (41), in ${wrong.length} place${wrong.length === 1 ? '' : 's'}.` : left.length === 0 ? 'No word outside the front 16 is left: the area is as a reset leaves it.' : `The book is whole; ${filed(words).length} of 64 slots are filed.`;
    fill('book-said', `${name}, ${order === 'little' ? 'lowest' : 'highest'} byte first${why}: ${said}`);
    fill(
        'book-answer',
        facts(['Front words', h('code', {}, accountWords(words.subarray(0, FRONT)))], ['Words left outside the front', left.length === 0 ? 'none' : `${left.length.toLocaleString('en')}: words ${left.slice(0, 20).join(', ')}${left.length > 20 ? ` .. ${left.at(-1)}` : ''}`]),
        wrong.length === 0 ? null : grid('What is wrong', ['Slot', 'Word', 'What'], wrong.map(({ slot, at, text: what }) => [String(slot), String(at), what])),
        slotTable('Filed slots', words),
        damaged ? null : movedTables(words),
    );
}

const accountWords = (words) => Array.from(words, (w) => w.toString(16).toUpperCase().padStart(8, '0')).join(' ');

function tryBook(job) {
    const book = (state.try ??= { words: new Uint32Array(BOOK_WORDS) });
    const before = Uint32Array.from(book.words);
    const { table, options } = desk();
    const used = table.book(book.words);
    const name = $('payee').value;
    const account = job === 'save' ? accountOf($('account').value) : null;
    if (job === 'save' && account === null) return fill('try-said', 'The account is 1 to 64 hexadecimal digits.');
    const answers = { save: () => used.save(name, account, options), find: () => used.find(name, options), forget: () => used.forget(name, options), reset: () => used.reset() };
    const answer = answers[job]();
    book.words = Uint32Array.from(used.words);
    const done = { save: 'Saved.', find: answer.account ? `Found: account ${accountText(answer.account)}.` : '', forget: 'Forgotten.', reset: 'Reset: every word outside the front is zero.' };
    const refusal = answer.accepted ? null : answer.refusal;
    fill('try-said', refusal ? `Refused (${refusal.number}): ${(RULES[refusal.number] ?? [refusal.text])[0]}` : done[job]);
    const moved = changes(before, book.words);
    const rows = moved.map(({ at, before: old, after }) => [`${at} to ${at + after.length - 1}`, h('code', {}, accountWords(old)), h('code', {}, accountWords(after))]);
    fill('try-answer', rows.length === 0 ? h('p', {}, 'No word of the area has changed.') : grid('Words that have changed', ['Words', 'Before', 'After'], rows), slotTable('Filed slots of the book to try', book.words));
}

// The start.

function dropped(id, take) {
    const zone = $(id);
    zone.addEventListener('dragover', (event) => {
        event.preventDefault();
        zone.classList.add('over');
    });
    zone.addEventListener('dragleave', () => zone.classList.remove('over'));
    zone.addEventListener('drop', (event) => {
        event.preventDefault();
        zone.classList.remove('over');
        if (event.dataTransfer.files.length > 0) take(event.dataTransfer.files[0]);
    });
}

function chosen(id, take) {
    $(id).addEventListener('change', () => {
        if ($(id).files.length > 0) take($(id).files[0]);
    });
}

async function takeDump(file) {
    state.dump = { name: file.name, bytes: new Uint8Array(await file.arrayBuffer()) };
    showDump();
}

function listen() {
    $('name').addEventListener('input', typedName);
    $('restrict').addEventListener('change', judgeName);
    $('which').addEventListener('change', () => {
        judgeName();
        showDump();
    });
    $('clear').addEventListener('click', () => {
        $('name').value = '';
        judgeName();
        $('name').focus();
    });
    $('list-go').addEventListener('click', () => {
        Object.assign(view, { by: 'index', down: false, number: null, page: 0 });
        state.list = overList('list', 'names', [desk()], showList);
    });
    $('list-save').addEventListener('click', () => save('names.csv', csv(ROW_HEAD, arranged(state.list.rows, view).map(cellsOf))));
    $('compare-go').addEventListener('click', () => {
        const tables = ['first', 'second'].map((id) => state.tables[Number($(id).value)]);
        state.difference = overList('compare', 'compare', tables, showDifference);
    });
    $('compare-save').addEventListener('click', () => save('differences.csv', csv(DIFFERENCE_HEAD, state.difference.rows.map((r) => [r.index + 1, r.name, told(r.first), told(r.second)]))));
    chosen('list-file', takeList);
    chosen('table-file', takeTable);
    dropped('table-drop', takeTable);
    chosen('book-file', takeDump);
    dropped('book-drop', takeDump);
    $('order').addEventListener('change', showDump);
    for (const job of ['save', 'find', 'forget', 'reset']) $(`try-${job}`).addEventListener('click', () => tryBook(job));
    for (const kind of ['dragover', 'drop']) document.addEventListener(kind, (event) => event.preventDefault()); // a file that misses is not opened
}

async function open() {
    try {
        state.module = bytesOf($('module').textContent);
        state.library = await load(state.module);
        const { table } = state.library.table(bytesOf($('table').textContent));
        const { words } = table;
        state.tables.push({ title: 'the full-size table of this page', table, words, contents: new Contents(words), groups: $('groups').textContent.trim().split('\n') });
        fillTables();
        listen();
        judgeName();
        document.documentElement.dataset.ready = 'yes';
    } catch (fault) {
        $('fault').hidden = false;
        fill('fault', `The engine could not be started: ${fault.message}`);
    }
}

open();
