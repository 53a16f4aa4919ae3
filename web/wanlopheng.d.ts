// The types of wanlopheng.mjs. Numbers, places and kinds are those of include/wanlopheng.h; docs/USING.md says what each refusal means.

export interface Refusal {
    /** The number of the refusal. */
    number: number;
    /** The place that it names: an index in codepoints, a label, or a byte for 30; else 0. */
    place: number;
    /** What it means, for a screen. */
    text: string;
}

export interface Refused {
    accepted: false;
    refusal: Refusal;
}

export type Answer<T> = ({ accepted: true } & T) | Refused;

export interface Form {
    /** The text; null where a number in it is no Unicode scalar value, which only a table that is not sound can give. */
    form: string | null;
    codepoints: number[];
}

export interface Name extends Form {
    /** The number of labels. */
    labels: number;
}

export interface Hashed extends Name {
    /** The 32 bytes of EIP-137. */
    node: Uint8Array;
}

export interface Label extends Form {
    kind: 'emoji' | 'ascii' | 'group';
    /** Of kind `group` alone: its number, counted from 0. */
    group?: number;
    restricted?: boolean;
}

export type Emoji = { found: false } | { found: true; taken: number; index: number; selectors: number };

export type Group =
    | { found: false; asked: number }
    | { found: true; group: number; restricted: boolean; whitelisted: boolean; asked: number };

export type Soundness = { sound: true } | { sound: false; rule: number };

export interface Options {
    /** Whether labels of restricted groups are refused, as 17. */
    restrict?: boolean;
}

export interface ScreenOptions extends Options {
    /** The number of the Greek group, counted from 0; where it is left out, no label is Greek. */
    greek?: number;
}

/** A call that trapped. It cannot happen in proved code within the stack; the instance is thrown away, and the next call has a new one. */
export declare class Trap extends Error {}

export declare const MEANINGS: Readonly<Record<number, string>>;
export declare const INPUT_MOST: number;
export declare const ANSWER_WORDS: number;
export declare const SCREEN_WORDS: number;
export declare const WORK_WORDS: number;
export declare const TABLE_WORDS: number;
export declare const BOOK_WORDS: number;
export declare const MOVED_WORDS: number;
export declare const GROUPS: number;
export declare const REPORT_BYTES: number;

type Source = BufferSource | WebAssembly.Module | Response;

/** Loads wanlopheng.wasm. */
export declare function load(source: Source | Promise<Source>): Promise<Library>;

/** The codepoints of a string; a surrogate that stands alone is a number of its own. */
export declare function codepointsOf(text: string): number[];

/** The string of these codepoints, or null where one is no Unicode scalar value. */
export declare function textOf(codepoints: number[]): string | null;

export declare class Library {
    constructor(module: WebAssembly.Module);
    /** The memory of the instance in use, for tests. */
    readonly memory: WebAssembly.Memory | null;
    /** Unpacks a table file. */
    table(file: Uint8Array): Answer<{ table: Table }>;
    /** A table of these words, which need no file. */
    tableOfWords(words: ArrayLike<number>): Table;
    keccak256(bytes: Uint8Array): Uint8Array;
    /** Keccak-256 of bytes that are taken in pieces. */
    sponge(): Sponge;
    readUtf8(bytes: Uint8Array): Answer<{ text: string; codepoints: number[] }>;
    writeUtf8(text: string): Answer<{ bytes: Uint8Array }>;
    /** A text without the blanks at its two ends; start and length in codepoints. */
    trim(text: string): { start: number; length: number; text: string };
}

export declare class Sponge {
    private constructor();
    /** Takes a piece. */
    absorb(bytes: Uint8Array): this;
    /** The digest of what was taken so far. */
    digest(): Uint8Array;
}

export declare class Table {
    private constructor();
    /** The number of its words. */
    readonly size: number;
    /** Its words, a copy. */
    readonly words: Uint32Array;
    /** Checks it for soundness: once, when a table arrives. */
    soundness(): Soundness;
    layoutFault(): boolean;
    normalise(name: string, options?: Options): Answer<Name>;
    normaliseBytes(bytes: Uint8Array, options?: Options): Answer<Name>;
    namehash(name: string, options?: Options): Answer<Hashed>;
    /** The screen form: emoji with every FE0F of their sequence, and 39E for 3BE in text of labels that are not Greek. For a screen alone. */
    screen(name: string, options?: ScreenOptions): Answer<Name>;
    label(label: string, options?: Options): Answer<Label>;
    emoji(part: string): Answer<Emoji>;
    group(text: string): Answer<Group>;
    /** The report of a name, token by token: its lines. */
    report(name: string, options?: Options): Answer<{ lines: string[] }>;
    /** The groups in which a label could be respelled: some exactly where it is refused as 14. */
    respelled(label: string): Answer<{ groups: number[] }>;
    nfd(text: string): Answer<Form>;
    nfc(text: string): Answer<Form>;
    /** A payee book by this table: the words of an earlier one, or an empty one. */
    book(words?: ArrayLike<number>): Book;
}

export declare class Book {
    private constructor();
    /** The area of the book, which is kept between the calls here and not in the module. */
    words: Uint32Array;
    /** Files an account, eight words, under a name. */
    save(name: string, account: ArrayLike<number>, options?: Options): Answer<{}>;
    find(name: string, options?: Options): Answer<{ account: number[] }>;
    forget(name: string, options?: Options): Answer<{}>;
    reset(): Answer<{}>;
    /** The slots that this table would file differently, each with the number of the refusal, 0 where it would get another form. */
    moved(): Answer<{ slots: { slot: number; number: number }[] }>;
}
