// The calls of Wanlopheng in WebAssembly, for JavaScript: strings in, objects out, refusals as values. No dependencies; wanlopheng.d.ts has the
// types, docs/TARGETS.md what it promises. After each call the module's memory is as it was before, its stack included: of a name nothing stays
// there. (The strings themselves are JavaScript's, which nobody can wipe.)

/** What the refusals mean, by their numbers: include/wanlopheng_text.h. */
export const MEANINGS = Object.freeze({
    1: 'the table has a layout fault',
    2: 'the work area is too small',
    3: 'the input has too many codepoints',
    4: 'a number that is no Unicode scalar value',
    5: 'a codepoint that names may not have',
    6: 'an empty label',
    7: 'the name is too long in its worked form',
    8: 'a low line after another character',
    9: 'hyphens in the third and fourth place',
    10: 'a fenced character first, last or beside another',
    11: 'a text that starts with a mark',
    12: 'characters that no one script group has together',
    13: 'too many or equal nonspacing marks together',
    14: 'the label looks like another one',
    15: 'the answer buffer is too small',
    16: 'a character with marks that its script group does not list',
    17: 'the label is of a restricted script group',
    20: 'the table file has another version',
    21: 'the table file has a wrong length',
    22: 'the table does not fit the buffer',
    30: 'bytes that are no UTF-8',
    31: 'UTF-8: the answer buffer is too small',
    32: 'the report is longer than its buffer',
    33: 'the list is too small',
    40: 'the area of the payee book has another size',
    41: 'the payee book is damaged',
    42: 'the normal form is empty',
    43: 'the normal form has over 255 codepoints',
    44: 'the name is not filed in the payee book',
    45: 'the payee book is full',
    50: 'NFD, NFC: the full decomposition has too many codepoints',
    51: 'NFD, NFC: the work area is too small',
    52: 'NFD, NFC: the answer buffer is too small',
});

/** Sizes of include/wanlopheng.h, in words. */
export const INPUT_MOST = 16384;
export const ANSWER_WORDS = 4096;
export const SCREEN_WORDS = 8192;
export const WORK_WORDS = 8192;
export const TABLE_WORDS = 131074;
export const BOOK_WORDS = 16912;
export const MOVED_WORDS = 128;
export const GROUPS = 256;
export const REPORT_BYTES = 323584;

const KINDS = [null, 'emoji', 'ascii', 'group'];
const NO_GROUP = 0xffffffff; // beyond every group
const SEQUENCE = 32; // codepoints of the longest emoji sequence
const PAGE = 65536;
const STATE = 208; // bytes of struct wanlopheng_sponge

/** A call that trapped. It cannot happen in proved code within the stack; the instance is thrown away, and the next call has a new one. */
export class Trap extends Error {
    constructor(cause) {
        super(`the module trapped: ${cause.message}`, { cause });
        this.name = 'Trap';
    }
}

/** Loads wanlopheng.wasm: its bytes, a compiled module, or a response of fetch, or a promise of one of them. */
export async function load(source) {
    const given = await source;
    if (given instanceof WebAssembly.Module) return new Library(given);
    if (typeof Response === 'function' && given instanceof Response) return new Library(await WebAssembly.compile(await given.arrayBuffer()));
    return new Library(await WebAssembly.compile(given));
}

/** The codepoints of a string; a surrogate that stands alone is a number of its own, which the calls refuse as 4. */
export function codepointsOf(text) {
    return Array.from(text, (c) => c.codePointAt(0));
}

/** The string of these codepoints, or null where one is no Unicode scalar value. */
export function textOf(codepoints) {
    const scalar = (c) => c < 0xd800 || (c > 0xdfff && c < 0x110000);
    return codepoints.every(scalar) ? Array.from(codepoints, (c) => String.fromCodePoint(c)).join('') : null;
}

function refused(number, place) {
    return { accepted: false, refusal: { number, place, text: MEANINGS[number] ?? `refusal ${number}` } };
}

function accepted(number, place, fields) {
    return number === 0 ? { accepted: true, ...fields() } : refused(number, place);
}

/** The places of one call in the module's memory, behind the table. All of them are wiped when it has ended. */
class Lent {
    constructor(machine) {
        this.machine = machine;
        this.top = machine.free;
    }

    /** This many bytes, all zero, at a place that is a multiple of 16. */
    place(bytes) {
        const at = this.top;
        this.top = (at + bytes + 15) & ~15;
        this.machine.grow(this.top);
        return at;
    }

    words(given) {
        const at = this.place(4 * given.length);
        new Uint32Array(this.machine.memory.buffer, at, given.length).set(given);
        return at;
    }

    bytes(given) {
        const at = this.place(given.length);
        new Uint8Array(this.machine.memory.buffer, at, given.length).set(given);
        return at;
    }

    /** What stands there, copied. */
    wordsAt(at, count) {
        return Array.from(new Uint32Array(this.machine.memory.buffer, at, count));
    }

    bytesAt(at, count) {
        return Uint8Array.from(new Uint8Array(this.machine.memory.buffer, at, count));
    }
}

/** An instance of the module, with at most one table in its memory. */
class Machine {
    constructor(module) {
        const { exports } = new WebAssembly.Instance(module);
        this.exports = exports;
        this.memory = exports.memory;
        this.base = (exports.__heap_base.value + 15) & ~15;
        this.free = this.base;
        this.words = null;
    }

    grow(top) {
        const missing = top - this.memory.buffer.byteLength;
        if (missing > 0) this.memory.grow(Math.ceil(missing / PAGE));
    }

    /** Has these words as its table; their place. */
    hold(words) {
        if (this.words !== words) {
            this.wipe(this.base, this.free);
            this.words = null;
            this.free = this.base;
            const lent = new Lent(this);
            lent.words(words);
            this.free = lent.top;
            this.words = words;
        }
        return this.base;
    }

    wipe(from, to) {
        new Uint8Array(this.memory.buffer, from, to - from).fill(0);
    }

    /** Wipes the places of a call, and the stack. */
    wipeCall(lent) {
        this.wipe(this.free, lent.top);
        this.wipe(this.exports.__stack_low.value, this.exports.__stack_high.value);
    }
}

/** The library: the calls that want no table, and tables. */
export class Library {
    #module;
    #machine = null;

    constructor(module) {
        this.#module = module;
    }

    /** The memory of the instance in use, for tests. */
    get memory() {
        return this.#machine?.memory ?? null;
    }

    /** Runs a job with places of its own, and wipes them; an instance that trapped is wiped and thrown away. */
    run(words, job) {
        this.#machine ??= new Machine(this.#module);
        const machine = this.#machine;
        let lent = null;
        try {
            const table = words === null ? 0 : machine.hold(words);
            lent = new Lent(machine);
            return job(machine.exports, lent, table);
        } catch (fault) {
            this.#machine = null;
            machine.wipe(0, machine.memory.buffer.byteLength);
            throw fault instanceof WebAssembly.RuntimeError || fault instanceof RangeError ? new Trap(fault) : fault;
        } finally {
            if (this.#machine === machine) machine.wipeCall(lent);
        }
    }

    /** Unpacks a table file. */
    table(file) {
        return this.run(null, (calls, lent) => {
            const told = lent.place(8);
            const room = Math.min(TABLE_WORDS, Math.floor(file.length / 4) + 1); // an older file has up to two words added
            const answer = lent.place(4 * room);
            calls.wanlopheng_unpack(told, lent.bytes(file), file.length, answer, room);
            const [number, count] = lent.wordsAt(told, 2);
            return accepted(number, 0, () => ({ table: new Table(this, Uint32Array.from(lent.wordsAt(answer, count))) }));
        });
    }

    /** A table of these words, which need no file. */
    tableOfWords(words) {
        return new Table(this, Uint32Array.from(words));
    }

    /** Keccak-256 of bytes. */
    keccak256(bytes) {
        return this.run(null, (calls, lent) => {
            const told = lent.place(32);
            calls.wanlopheng_keccak256(told, lent.bytes(bytes), bytes.length);
            return lent.bytesAt(told, 32);
        });
    }

    /** Keccak-256 of bytes that are taken in pieces. */
    sponge() {
        return new Sponge(this);
    }

    /** Reads UTF-8. */
    readUtf8(bytes) {
        return this.run(null, (calls, lent) => {
            const told = lent.place(12);
            const answer = lent.place(4 * bytes.length);
            calls.wanlopheng_utf8_read(told, lent.bytes(bytes), bytes.length, answer, bytes.length);
            const [number, place, length] = lent.wordsAt(told, 3);
            return accepted(number, place, () => {
                const codepoints = lent.wordsAt(answer, length);
                return { text: textOf(codepoints), codepoints };
            });
        });
    }

    /** Writes a text as UTF-8. */
    writeUtf8(text) {
        const codepoints = codepointsOf(text);
        return this.run(null, (calls, lent) => {
            const told = lent.place(12);
            const answer = lent.place(4 * codepoints.length);
            calls.wanlopheng_utf8_write(told, lent.words(codepoints), codepoints.length, answer, 4 * codepoints.length);
            const [number, place, length] = lent.wordsAt(told, 3);
            return accepted(number, place, () => ({ bytes: lent.bytesAt(answer, length) }));
        });
    }

    /** A text without the blanks at its two ends. */
    trim(text) {
        const codepoints = codepointsOf(text);
        return this.run(null, (calls, lent) => {
            const told = lent.place(8);
            calls.wanlopheng_trim(told, lent.words(codepoints), codepoints.length);
            const [start, length] = lent.wordsAt(told, 2);
            const part = codepoints.slice(start, start + length);
            return { start, length, text: Array.from(part, (c) => String.fromCodePoint(c)).join('') };
        });
    }
}

/** A sponge of Keccak-256. Its state is JavaScript's; less than a block, it holds the bytes taken. */
export class Sponge {
    #library;
    #state;

    constructor(library) {
        this.#library = library;
        this.#state = this.#give(STATE, (calls, lent, told) => calls.wanlopheng_sponge_new(told));
    }

    /** Takes a piece. */
    absorb(bytes) {
        const taken = (calls, lent, told) => calls.wanlopheng_sponge_absorb(told, lent.bytes(this.#state), lent.bytes(bytes), bytes.length);
        this.#state = this.#give(STATE, taken);
        return this;
    }

    /** The digest of what was taken so far. */
    digest() {
        return this.#give(32, (calls, lent, told) => calls.wanlopheng_sponge_digest(told, lent.bytes(this.#state)));
    }

    #give(count, job) {
        return this.#library.run(null, (calls, lent) => {
            const told = lent.place(count);
            job(calls, lent, told);
            return lent.bytesAt(told, count);
        });
    }
}

/** A table, and the calls that want one. */
export class Table {
    #library;
    #words;

    constructor(library, words) {
        this.#library = library;
        this.#words = words;
    }

    /** The number of its words. */
    get size() {
        return this.#words.length;
    }

    /** Its words, a copy. */
    get words() {
        return Uint32Array.from(this.#words);
    }

    /** Checks it for soundness: once, when a table arrives. */
    soundness() {
        return this.#run(2, (calls, lent, told, table, size) => {
            calls.wanlopheng_soundness(told, table, size);
            const [sound, rule] = lent.wordsAt(told, 2);
            return sound === 1 ? { sound: true } : { sound: false, rule };
        });
    }

    /** Whether its layout is at fault. */
    layoutFault() {
        return this.#run(0, (calls, lent, told, table, size) => calls.wanlopheng_layout_fault(table, size) === 1);
    }

    /** Normalises a name. */
    normalise(name, options = {}) {
        return this.#name('wanlopheng_name', (lent) => wordsOf(lent, name), options);
    }

    /** Normalises a name that is given as UTF-8. */
    normaliseBytes(bytes, options = {}) {
        return this.#name('wanlopheng_name_bytes', (lent) => [lent.bytes(bytes), bytes.length], options);
    }

    /** Normalises a name and hashes its normal form (EIP-137). */
    namehash(name, options = {}) {
        return this.#name('wanlopheng_namehash', (lent) => wordsOf(lent, name), options, (lent, told) => ({ node: lent.bytesAt(told + 16, 32) }));
    }

    /** The screen form of a name: emoji with every FE0F of their sequence, and 39E for 3BE in text of labels that are not of the Greek group, whose
     *  number is options.greek; where that is left out, no label is Greek. For a screen alone. */
    screen(name, options = {}) {
        return this.#run(4, (calls, lent, told, table, size) => {
            const [at, length] = wordsOf(lent, name);
            const room = Math.max(SCREEN_WORDS, SEQUENCE * Math.min(length, INPUT_MOST) + ANSWER_WORDS); // by any table
            const answer = lent.place(4 * room);
            const work = lent.place(4 * WORK_WORDS);
            calls.wanlopheng_screen(told, at, length, table, size, options.greek ?? NO_GROUP, setting(options), answer, room, work, WORK_WORDS);
            const [number, place, count, labels] = lent.wordsAt(told, 4);
            return accepted(number, place, () => {
                const codepoints = lent.wordsAt(answer, count);
                return { form: textOf(codepoints), codepoints, labels };
            });
        });
    }

    /** Normalises one label. */
    label(label, options = {}) {
        return this.#run(6, (calls, lent, told, table, size) => {
            const [at, length] = wordsOf(lent, label);
            const [answer, work] = buffers(lent);
            calls.wanlopheng_label(told, at, length, table, size, setting(options), answer, ANSWER_WORDS, work, WORK_WORDS);
            const [number, place, count, kind, group, restricted] = lent.wordsAt(told, 6);
            return accepted(number, place, () => {
                const codepoints = lent.wordsAt(answer, count);
                const which = KINDS[kind] === 'group' ? { group, restricted: restricted === 1 } : {};
                return { form: textOf(codepoints), codepoints, kind: KINDS[kind], ...which };
            });
        });
    }

    /** Which emoji stands at the start of a part of a label. */
    emoji(part) {
        return this.#run(5, (calls, lent, told, table, size) => {
            const [at, length] = wordsOf(lent, part);
            calls.wanlopheng_emoji(told, at, length, table, size);
            const [number, found, taken, index, selectors] = lent.wordsAt(told, 5);
            return accepted(number, 0, () => (found === 1 ? { found: true, taken, index, selectors } : { found: false }));
        });
    }

    /** The first group that holds every codepoint of a text. */
    group(text) {
        return this.#run(7, (calls, lent, told, table, size) => {
            const [at, length] = wordsOf(lent, text);
            calls.wanlopheng_group(told, at, length, table, size);
            const [number, place, found, group, restricted, whitelisted, asked] = lent.wordsAt(told, 7);
            const which = () => ({ found: true, group, restricted: restricted === 1, whitelisted: whitelisted === 1, asked });
            return accepted(number, place, () => (found === 1 ? which() : { found: false, asked }));
        });
    }

    /** The report of a name, token by token: its lines. */
    report(name, options = {}) {
        return this.#run(3, (calls, lent, told, table, size) => {
            const [at, length] = wordsOf(lent, name);
            const out = lent.place(REPORT_BYTES);
            calls.wanlopheng_report(told, at, length, table, size, setting(options), out, REPORT_BYTES, lent.place(4 * WORK_WORDS), WORK_WORDS);
            const [number, place, count] = lent.wordsAt(told, 3);
            const text = () => Array.from(lent.bytesAt(out, count), (byte) => String.fromCharCode(byte)).join('');
            return accepted(number, place, () => ({ lines: text().split('\n').slice(0, -1) }));
        });
    }

    /** The groups in which a label could be respelled: some exactly where it is refused as 14. */
    respelled(label) {
        return this.#run(3, (calls, lent, told, table, size) => {
            const [at, length] = wordsOf(lent, label);
            const list = lent.place(4 * GROUPS);
            calls.wanlopheng_respelled(told, at, length, table, size, list, GROUPS, lent.place(4 * WORK_WORDS), WORK_WORDS);
            const [number, place, count] = lent.wordsAt(told, 3);
            return accepted(number, place, () => ({ groups: lent.wordsAt(list, count) }));
        });
    }

    /** NFD of a text by this table. */
    nfd(text) {
        return this.#form('wanlopheng_nfd', text);
    }

    /** NFC of a text by this table. */
    nfc(text) {
        return this.#form('wanlopheng_nfc', text);
    }

    /** A payee book by this table: the words of an earlier one, or an empty one. */
    book(words = new Uint32Array(BOOK_WORDS)) {
        return new Book((count, job) => this.#run(count, job), Uint32Array.from(words));
    }

    /** A job with the table in place, and room for an answer of so many words. */
    #run(count, job) {
        return this.#library.run(this.#words, (calls, lent, table) => job(calls, lent, lent.place(4 * count), table, this.#words.length));
    }

    #name(call, given, options, more = () => ({})) {
        return this.#run(12, (calls, lent, told, table, size) => {
            const [at, length] = given(lent);
            const [answer, work] = buffers(lent);
            calls[call](told, at, length, table, size, setting(options), answer, ANSWER_WORDS, work, WORK_WORDS);
            const [number, place, count, labels] = lent.wordsAt(told, 4);
            return accepted(number, place, () => {
                const codepoints = lent.wordsAt(answer, count);
                return { form: textOf(codepoints), codepoints, labels, ...more(lent, told) };
            });
        });
    }

    #form(call, text) {
        return this.#run(2, (calls, lent, told, table, size) => {
            const [at, length] = wordsOf(lent, text);
            const [answer, work] = buffers(lent);
            calls[call](told, at, length, table, size, answer, ANSWER_WORDS, work, WORK_WORDS);
            const [number, count] = lent.wordsAt(told, 2);
            return accepted(number, 0, () => {
                const codepoints = lent.wordsAt(answer, count);
                return { form: textOf(codepoints), codepoints };
            });
        });
    }
}

/** Payees, filed under the normal forms of their names. Its words are JavaScript's, and in the module's memory during a call alone. */
export class Book {
    #run;

    constructor(run, words) {
        this.#run = run;
        this.words = words;
    }

    /** Files an account, eight words, under a name. */
    save(name, account, options = {}) {
        return this.#call(2, name, options, (calls, told, given, area, lent) => {
            const words = lent.words(Uint32Array.from({ length: 8 }, (_, i) => account[i]));
            calls.wanlopheng_save(told, ...given.name, words, ...area, ...given.buffers);
        });
    }

    /** The account that is filed under a name. */
    find(name, options = {}) {
        return this.#call(10, name, options, (calls, told, given, area) => {
            calls.wanlopheng_find(told, ...given.name, ...area, ...given.buffers);
        });
    }

    /** Clears the slot of a name. */
    forget(name, options = {}) {
        return this.#call(2, name, options, (calls, told, given, area) => {
            calls.wanlopheng_forget(told, ...given.name, ...area, ...given.buffers);
        });
    }

    /** Clears every slot, of a damaged book too. */
    reset() {
        return this.#call(2, '', {}, (calls, told, given, area) => calls.wanlopheng_reset(told, ...area, ...given.buffers));
    }

    /** The slots that this table would file differently, each with the number of the refusal, 0 where it would get another form. */
    moved() {
        return this.#run(3, (calls, lent, told, table, size) => {
            const list = lent.place(4 * MOVED_WORDS);
            const area = [lent.words(this.words), this.words.length];
            calls.wanlopheng_moved(told, ...area, table, size, list, MOVED_WORDS, lent.place(4 * WORK_WORDS), WORK_WORDS);
            const [number, place, count] = lent.wordsAt(told, 3);
            const words = lent.wordsAt(list, 2 * count);
            return accepted(number, place, () => ({ slots: Array.from({ length: count }, (_, i) => ({ slot: words[2 * i], number: words[2 * i + 1] })) }));
        });
    }

    #call(count, name, options, job) {
        return this.#run(count, (calls, lent, told, table, size) => {
            const [answer, work] = buffers(lent);
            const given = {
                name: [...wordsOf(lent, name), table, size, setting(options)],
                buffers: [answer, ANSWER_WORDS, work, WORK_WORDS],
            };
            const area = [lent.words(this.words), this.words.length];
            job(calls, told, given, area, lent);
            this.words.set(lent.wordsAt(...area));
            const [number, place, ...account] = lent.wordsAt(told, count);
            return accepted(number, place, () => (count > 2 ? { account } : {}));
        });
    }
}

function setting(options) {
    return options.restrict ? 1 : 0;
}

function wordsOf(lent, text) {
    const codepoints = codepointsOf(text);
    return [lent.words(codepoints), codepoints.length];
}

function buffers(lent) {
    return [lent.place(4 * ANSWER_WORDS), lent.place(4 * WORK_WORDS)];
}
