// The area of a payee book (02, Item 7): read from a dump, looked through for damage, and compared.
import { BOOK_WORDS, textOf } from '../wanlopheng.mjs';

export const FRONT = 16;
export const SLOTS = 64;
export const SLOT = 264;
export const FORM_MOST = 255;

/** The words of a dump in this byte order, `big` or `little`. */
export function wordsOfDump(bytes, order) {
    const view = new DataView(bytes.buffer, bytes.byteOffset, bytes.length);
    return Uint32Array.from({ length: Math.floor(bytes.length / 4) }, (_, i) => view.getUint32(4 * i, order === 'little'));
}

/** The byte orders in which the length of every slot is one: both for an empty book, none for some damaged ones. */
export function ordersOf(bytes) {
    const fits = (order) => slotsOf(wordsOfDump(bytes, order)).every(({ length }) => length <= FORM_MOST);
    return bytes.length === 4 * BOOK_WORDS ? ['little', 'big'].filter(fits) : [];
}

/** All slots, filed or not. */
export function slotsOf(words) {
    return Array.from({ length: SLOTS }, (_, slot) => {
        const at = FRONT + slot * SLOT;
        const length = words[at];
        const form = Array.from(words.subarray(at + 1, at + 1 + Math.min(length, FORM_MOST)));
        return { slot, at, length, form, account: Array.from(words.subarray(at + 1 + FORM_MOST, at + SLOT)) };
    });
}

export const filed = (words) => slotsOf(words).filter(({ length }) => length > 0);

/** What is wrong with an area, and at which word; the engine says whether something is (40, 41), this says where. */
export function damage(words) {
    if (words.length !== BOOK_WORDS) return [{ slot: null, at: null, text: `the area has ${words.length} words and not ${BOOK_WORDS}` }];
    const found = [];
    const seen = new Map();
    for (const { slot, at, length, form, account } of slotsOf(words)) {
        if (length > FORM_MOST) {
            found.push({ slot, at, text: `its length is ${length}, over ${FORM_MOST}` });
            continue;
        }
        for (let i = at + 1 + length; i < at + 1 + FORM_MOST; i++) {
            if (words[i] !== 0) {
                found.push({ slot, at: i, text: `word ${i} behind its name is not zero` });
                break;
            }
        }
        if (length === 0 && account.some((w) => w !== 0)) found.push({ slot, at: at + 1 + FORM_MOST, text: 'it is free and has an account' });
        const key = form.join(' ');
        if (length > 0 && seen.has(key)) found.push({ slot, at, text: `it has the name of slot ${seen.get(key)}` });
        else if (length > 0) seen.set(key, slot);
    }
    return found;
}

/** The words outside the front that are not zero: none after a reset. */
export function leftOver(words) {
    const places = [];
    for (let i = FRONT; i < words.length; i++) if (words[i] !== 0) places.push(i);
    return places;
}

/** The words that two areas have otherwise, in rows that stand together. */
export function changes(before, after) {
    const rows = [];
    for (let i = 0; i < after.length; i++) {
        if (before[i] === after[i]) continue;
        const last = rows.at(-1);
        if (last && last.at + last.after.length === i) {
            last.before.push(before[i]);
            last.after.push(after[i]);
        } else {
            rows.push({ at: i, before: [before[i]], after: [after[i]] });
        }
    }
    return rows;
}

/** The payees that another table would file differently, with the old and the new form. */
export function refiled(desk, words) {
    const listed = desk.table.book(words).moved();
    if (!listed.accepted) return listed;
    const slots = slotsOf(words);
    const entries = listed.slots.map(({ slot, number }) => {
        const text = textOf(slots[slot].form);
        const name = number === 0 && text !== null ? desk.table.normalise(text) : null;
        return { slot, number, old: slots[slot].form, now: name?.accepted ? name.codepoints : null };
    });
    return { accepted: true, entries };
}

/** The eight words of an account, from hexadecimal digits; null where they are not 1 to 64 digits. */
export function accountOf(text) {
    const digits = text.replace(/^0x/i, '').replace(/[\s_]/g, '');
    if (!/^[0-9a-f]{1,64}$/i.test(digits)) return null;
    const full = digits.padStart(64, '0');
    return Array.from({ length: 8 }, (_, i) => parseInt(full.slice(8 * i, 8 * i + 8), 16));
}

export const accountText = (words) => Array.from(words, (w) => w.toString(16).padStart(8, '0')).join('');
