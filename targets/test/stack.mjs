// The stack of the calls in WebAssembly, on the questions of mode 1 (targets/test/calls.c): node stack.mjs WASM QUESTIONS. It is painted, a call is
// made, and it is looked through. Writes as JSON for each kind of call the most bytes, the words that are codepoints of the name, and how many stand
// in order.
import { readFileSync } from 'node:fs';

const PAINT = 0x5041494e;
const NINE = 9; // bytes in order that are a part of a name
const [, , wasm, file] = process.argv;
const { exports } = (await WebAssembly.instantiate(readFileSync(wasm))).instance;
const bytes = readFileSync(file);
const given = new Uint32Array(bytes.buffer, bytes.byteOffset, bytes.length / 4);
const low = exports.__stack_low.value;
const high = exports.__stack_high.value;
const base = (exports.__heap_base.value + 15) & ~15;
exports.memory.grow(80); // 5 MB
const words = new Uint32Array(exports.memory.buffer);
const stack = words.subarray(low / 4, high / 4);

// Places: what is told, the answer, the work area, the name, its bytes, an account and a sponge, a payee book, the table, a report.
const PLACES = [0, 1 << 12, 1 << 15, 1 << 17, 1 << 18, 1 << 19, 1 << 20, 1 << 21, 1 << 22];
const [TOLD, ANSWER, WORK, NAME, BYTES, GIVEN, BOOK, TABLE, REPORT] = PLACES.map((n) => base + n);
const put = (at, list) => words.set(list, at / 4);

// Each call, on a name of n codepoints and b bytes and a table of t words. Of a name nothing may stay; the hashes are handed bytes.
let [setting, room] = [0, 4096];
const buffers = () => [ANSWER, room, WORK, 8192];
const CALLS = {
    name: (n, t) => exports.wanlopheng_name(TOLD, NAME, n, TABLE, t, setting, ...buffers()),
    label: (n, t) => exports.wanlopheng_label(TOLD, NAME, n, TABLE, t, setting, ...buffers()),
    namehash: (n, t) => exports.wanlopheng_namehash(TOLD, NAME, n, TABLE, t, setting, ...buffers()),
    screen: (n, t) => exports.wanlopheng_screen(TOLD, NAME, n, TABLE, t, 1, setting, ...buffers()),
    nfd: (n, t) => exports.wanlopheng_nfd(TOLD, NAME, n, TABLE, t, ...buffers()),
    nfc: (n, t) => exports.wanlopheng_nfc(TOLD, NAME, n, TABLE, t, ...buffers()),
    group: (n, t) => exports.wanlopheng_group(TOLD, NAME, n, TABLE, t),
    emoji: (n, t) => exports.wanlopheng_emoji(TOLD, NAME, n, TABLE, t),
    trim: (n) => exports.wanlopheng_trim(TOLD, NAME, n),
    utf8_write: (n) => exports.wanlopheng_utf8_write(TOLD, NAME, n, ANSWER, 16384),
    utf8_read: (n, t, b) => exports.wanlopheng_utf8_read(TOLD, BYTES, b, ANSWER, 4096),
    name_bytes: (n, t, b) => exports.wanlopheng_name_bytes(TOLD, BYTES, b, TABLE, t, setting, ...buffers()),
    save: (n, t) => exports.wanlopheng_save(TOLD, NAME, n, TABLE, t, setting, GIVEN, BOOK, 16912, ...buffers()),
    find: (n, t) => exports.wanlopheng_find(TOLD, NAME, n, TABLE, t, setting, BOOK, 16912, ...buffers()),
    moved: (n, t) => exports.wanlopheng_moved(TOLD, BOOK, 16912, TABLE, t, ...buffers()),
    forget: (n, t) => exports.wanlopheng_forget(TOLD, NAME, n, TABLE, t, setting, BOOK, 16912, ...buffers()),
    reset: () => exports.wanlopheng_reset(TOLD, BOOK, 16912, ...buffers()),
    respelled: (n, t) => exports.wanlopheng_respelled(TOLD, NAME, n, TABLE, t, ...buffers()),
    keccak256: (n, t, b) => exports.wanlopheng_keccak256(TOLD, BYTES, b),
    sponge_new: () => exports.wanlopheng_sponge_new(TOLD),
    sponge_absorb: (n, t, b) => exports.wanlopheng_sponge_absorb(TOLD, GIVEN, BYTES, b),
    sponge_digest: () => exports.wanlopheng_sponge_digest(TOLD, GIVEN),
    report: (n, t) => exports.wanlopheng_report(TOLD, NAME, n, TABLE, t, setting, REPORT, 323584, WORK, 8192),
};
const HASHES = ['keccak256', 'sponge_new', 'sponge_absorb', 'sponge_digest'];
const most = Object.fromEntries([...Object.keys(CALLS), 'soundness', 'layout_fault', 'unpack'].map((kind) => [kind, [0, 0, 0]]));

/** What of a text stands in the words from `at` on, as rust/engine/tests/painted/mod.rs counts it. */
function traces(text, at) {
    let [found, inOrder] = [0, 0];
    for (let i = at; i < stack.length; i++) {
        let counts = false;
        if (stack[i] === 0 || stack[i] > 0x10ffff) continue;
        text.forEach((c, start) => {
            if (c !== stack[i]) return;
            counts = c >= 0x100;
            for (const step of [1, 2]) {
                let row = 1;
                while (start + row < text.length && stack[i + step * row] === text[start + row]) row++;
                if (row === 2 && text[start] === text[start + 1]) row = 1; // one codepoint that was spilled twice
                if (row > 1 || counts) inOrder = Math.max(inOrder, row);
            }
        });
        if (counts) found++;
    }
    return [found, inOrder];
}

function measure(kind, call, texts) {
    stack.fill(PAINT);
    call();
    const deepest = stack.findIndex((w) => w !== PAINT);
    const used = deepest < 0 ? 0 : 4 * (stack.length - deepest);
    const from = Math.max(deepest, 0);
    const all = texts().map((text) => (spelled(text, from) ? [0, NINE] : traces(text, from)));
    most[kind] = most[kind].map((now, i) => Math.max(now, i === 0 ? used : Math.max(0, ...all.map((t) => t[i - 1]))));
}

/** Whether nine bytes in order of the UTF-8 of a text stand in the words from `at` on. */
function spelled(text, at) {
    const end = text.findIndex((c) => c > 0x10ffff || (c >= 0xd800 && c <= 0xdfff));
    const scalars = text.slice(0, end < 0 ? text.length : end).map((c) => String.fromCodePoint(c));
    const bytes = Buffer.from(scalars.join('')).toString('latin1');
    const parts = new Set(Array.from({ length: Math.max(0, bytes.length - NINE + 1) }, (_, i) => bytes.slice(i, i + NINE)));
    const left = Buffer.from(stack.buffer, stack.byteOffset + 4 * at, 4 * (stack.length - at)).toString('latin1');
    for (let i = 0; parts.size > 0 && i + NINE <= left.length; i++) if (parts.has(left.slice(i, i + NINE))) return true;
    return false;
}

/** What is left of a name is found, in words and in bytes. */
function finds() {
    const name = Array.from({ length: 9 }, (_, i) => 0x4e00 + i);
    const places = [stack.length - 100, stack.length - 50];
    stack.fill(PAINT);
    if (traces(name, places[0])[1] !== 0 || spelled(name, places[0])) return false;
    stack.set(name.slice(1, 5), places[1]);
    const found = traces(name, places[0])[1] === 4 && !spelled(name, places[0]);
    stack.fill(PAINT);
    new Uint8Array(stack.buffer, stack.byteOffset + 4 * places[1] + 1, 9).set(Buffer.from(String.fromCodePoint(...name.slice(2, 5))));
    return found && spelled(name, places[0]);
}
if (!finds()) throw new Error('what is left of a name is not found');

let at = 3;
const tables = [];
for (let i = 0; i < given[2]; i++) {
    tables.push(given.subarray(at + 1, at + 1 + given[at]));
    at += 1 + given[at];
}
for (const table of tables) {
    put(TABLE, table);
    measure('soundness', () => exports.wanlopheng_soundness(TOLD, TABLE, table.length), () => []);
    measure('layout_fault', () => exports.wanlopheng_layout_fault(TABLE, table.length), () => []);
    const file = new DataView(new ArrayBuffer(5 + 4 * table.length));
    file.setUint8(0, 3);
    [table.length, ...table].forEach((word, i) => file.setUint32(1 + 4 * i, word));
    new Uint8Array(exports.memory.buffer).set(new Uint8Array(file.buffer), BYTES);
    measure('unpack', () => exports.wanlopheng_unpack(TOLD, BYTES, file.byteLength, TABLE, table.length), () => []);
    if (words[TOLD / 4] !== 0) throw new Error('the table is not unpacked');
}
for (let left = given[at++]; left > 0; left--) {
    let [table, count] = [0, 0];
    [table, setting, room, , count] = given.subarray(at, at + 5);
    const name = [...given.subarray(at + 5, at + 5 + count)];
    at += 5 + count;
    put(TABLE, tables[table]);
    put(NAME, name);
    exports.wanlopheng_utf8_write(TOLD, NAME, count, BYTES, 1 << 16);
    const length = words[TOLD / 4 + 2];
    exports.wanlopheng_nfd(TOLD, NAME, count, TABLE, tables[table].length, ANSWER, 4096, WORK, 8192);
    const decomposed = [...words.subarray(ANSWER / 4, ANSWER / 4 + words[TOLD / 4 + 1])];
    for (const [kind, call] of Object.entries(CALLS)) {
        const form = () => {
            const answer = words.subarray(ANSWER / 4, ANSWER / 4 + 4096);
            const end = answer.indexOf(0);
            return [...answer.subarray(0, end < 0 ? 4096 : end)];
        };
        const texts = () => (HASHES.includes(kind) ? [] : [name, form(), decomposed]);
        measure(kind, () => call(count, tables[table].length, length), texts);
    }
}
console.log(JSON.stringify(most));
