// Many names at once: a list from a text, a row for each, rows sorted and filtered, and CSV.
import { hex } from './judge.mjs';

/** The names of a text, one a line. A line end before the end of the text is not part of a name; an empty last line is none. */
export function namesOf(text) {
    const lines = text.replace(/^\ufeff/, '').split(/\r\n|\n|\r/);
    if (lines.at(-1) === '') lines.pop();
    return lines;
}

/** The answer for one name of a list, short. */
export function row(desk, name, index) {
    const found = desk.table.normalise(name, desk.options);
    return found.accepted
        ? { index, name, accepted: true, form: found.form ?? '', codepoints: hex(found.codepoints), number: 0, place: 0, text: '' }
        : { index, name, accepted: false, form: '', codepoints: '', ...found.refusal };
}

const ORDERS = {
    index: (a, b) => a.index - b.index,
    name: (a, b) => (a.name < b.name ? -1 : a.name > b.name ? 1 : 0),
    form: (a, b) => (a.form < b.form ? -1 : a.form > b.form ? 1 : 0),
    number: (a, b) => a.number - b.number || a.place - b.place,
};

/** Rows in an order, those of one number alone where it is given; equal ones stay in the order of the list. */
export function arranged(rows, { by = 'index', down = false, number = null } = {}) {
    const kept = number === null ? [...rows] : rows.filter((r) => r.number === number);
    const sign = down ? -1 : 1;
    return kept.sort((a, b) => sign * ORDERS[by](a, b) || a.index - b.index);
}

/** How many rows have which number. */
export function counts(rows) {
    const found = new Map();
    for (const { number } of rows) found.set(number, (found.get(number) ?? 0) + 1);
    return [...found].sort(([a], [b]) => a - b);
}

/** A cell of a CSV file. One that a spreadsheet would take for a formula gets an apostrophe before it. */
export function cell(value) {
    const text = String(value);
    const harmless = /^[=+\-@\t\r\n]/.test(text) ? `'${text}` : text;
    return /[",\r\n]/.test(harmless) || harmless !== text ? `"${harmless.replaceAll('"', '""')}"` : harmless;
}

export function csv(head, rows) {
    return [head, ...rows].map((cells) => cells.map(cell).join(',')).join('\r\n') + '\r\n';
}

export const ROW_HEAD = ['line', 'name', 'answer', 'normal form', 'codepoints', 'refusal', 'place', 'meaning'];

export function cellsOf(r) {
    return [r.index + 1, r.name, r.accepted ? 'accepted' : 'refused', r.form, r.codepoints, r.accepted ? '' : r.number, r.accepted ? '' : r.place, r.text];
}

/** Whether two tables answer a name alike. */
export function differs(a, b) {
    return a.accepted !== b.accepted || a.number !== b.number || a.place !== b.place || a.codepoints !== b.codepoints;
}

export const DIFFERENCE_HEAD = ['line', 'name', 'first table', 'second table'];

export const told = (r) => (r.accepted ? r.form : `refusal ${r.number} at ${r.place}: ${r.text}`);
