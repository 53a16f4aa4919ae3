// Everything that the page says of one name, as values. The answers are the engine's; the table's contents say what became of each character.
import { codepointsOf, textOf } from '../wanlopheng.mjs';

const STOP = 0x2e;
const JOINER = 0x200d;
const SELECTOR = 0xfe0f;
const KEYCAP = 0x20e3;
const FLAG = 0x1f3f4;
const LAST_TAG = 0xe007f;
const ALPHA = 0x3b1;

/** Of a refused name so many codepoints are looked through for tokens. */
export const LOOKED_THROUGH = 1000;

/** What a refusal says to a person: the rule, and what may help. */
export const RULES = Object.freeze({
    1: ['The table is damaged.', 'Choose another table.'],
    2: ['The work area that was lent is too small.', 'This is a fault of the page.'],
    3: ['A name may have 16,384 characters at most.', 'Shorten it.'],
    4: ['This is not a Unicode character.', 'It is half of a pair, or a number that Unicode does not have.'],
    5: ['Names may not have this character.', 'Remove it, or write another one.'],
    6: ['A label is empty.', 'There is nothing before, between or after full stops.'],
    7: ['The name is too long when it is taken apart: 4,096 codepoints at most.', 'Shorten it.'],
    8: ['A low line may stand only at the start of a label.', 'Move it to the start, or remove it.'],
    9: ['The third and fourth characters of an ASCII label may not both be hyphens.', 'Remove one of them.'],
    10: ['This punctuation may not be first or last in a label, nor stand beside another one.', 'Put a letter between, or remove it.'],
    11: ['A mark stands where there is no letter for it.', 'Put a letter before it, or remove it.'],
    12: ['The characters of the label do not belong to one script.', 'Write the label in one script.'],
    13: ['Too many marks stand on one letter, or the same mark stands on it twice.', 'Four different ones are the most.'],
    14: ['The label looks like another one that is written in another script.', 'Do not trust it by its looks.'],
    15: ['The answer does not fit its buffer.', 'This is a fault of the page.'],
    16: ['A letter carries marks that this script does not have on it.', 'Remove a mark, or write another letter.'],
    17: ['The label is of a script that few people use, and the setting refuses those.', 'The switch "Refuse rare scripts" turns this off.'],
    20: ['The table file has a version that the engine does not know.', 'Versions 1 to 4 are known.'],
    21: ['The table file does not have the length that it says.', 'It may be cut, or not be a table file.'],
    22: ['The table is too large.', 'It may have 131,074 words.'],
    30: ['The bytes are not UTF-8.', 'Save the text as UTF-8.'],
    40: ['The area of a payee book has 16,912 words.', 'This one has another size.'],
    41: ['The payee book is damaged.', 'A reset clears it.'],
    42: ['The normal form is empty, so that nothing can be filed under it.', 'Type a name.'],
    43: ['The normal form has over 255 codepoints, more than a slot holds.', 'Shorten the name.'],
    44: ['The name is not filed in the book.', 'Save it first.'],
    45: ['The book is full: 64 names are filed.', 'Forget one of them.'],
});

export const numbered = (c) => `U+${c.toString(16).toUpperCase().padStart(4, '0')}`;
export const hex = (codepoints) => Array.from(codepoints, (c) => c.toString(16).toUpperCase()).join(' ');
export const hexBytes = (bytes) => Array.from(bytes, (b) => b.toString(16).padStart(2, '0')).join('');

const INVISIBLE = /^[\p{C}\p{Z}\p{Default_Ignorable_Code_Point}]$/u;
const MARK = /^\p{M}$/u;
const PICTURE = /^\p{Extended_Pictographic}$/u;
const TONE = /^\p{Emoji_Modifier}$/u;
const isTag = (c) => c >= 0xe0020 && c <= LAST_TAG;
const scalar = (c) => c < 0xd800 || (c > 0xdfff && c < 0x110000);

/** Whether a joiner, a selector or a tag stands inside an emoji, where it is not seen as a character of its own: a selector once behind a character
 * that can be an emoji (behind a digit only in a keycap), a joiner between two of them, tags between a flag and the last tag. */
function holdsEmoji(codepoints, at) {
    const is = (place, what) => scalar(codepoints[place] ?? 0) && what.test(String.fromCodePoint(codepoints[place] ?? 0));
    if (isTag(codepoints[at])) {
        let [first, last] = [at, at];
        while (isTag(codepoints[first - 1])) first -= 1;
        while (isTag(codepoints[last]) && codepoints[last] !== LAST_TAG) last += 1;
        return codepoints[first - 1] === FLAG && codepoints[last] === LAST_TAG && codepoints.indexOf(LAST_TAG, first) >= at;
    }
    if (codepoints[at] === SELECTOR) return is(at - 1, PICTURE) || (is(at - 1, /^[#*0-9]$/) && codepoints[at + 1] === KEYCAP);
    const before = codepoints[at - 1] === SELECTOR ? at - 2 : at - 1;
    return codepoints[at] === JOINER && (is(before, PICTURE) || is(before, TONE)) && is(at + 1, PICTURE);
}

/** Pieces of a text to be shown one after another: characters, and numbers in the place of what cannot be seen, of marks that stand alone and of
 * what the table says to escape. A joiner or a selector that holds an emoji together stays. */
export function shown(codepoints, contents = null) {
    const pieces = [];
    let open = false; // the last piece is a text that a mark or a joiner can join
    const add = (text, number) => {
        const last = pieces.at(-1);
        if (!number && last && !last.number) last.text += text;
        else pieces.push({ text, number });
    };
    codepoints.forEach((c, at) => {
        const text = scalar(c) ? String.fromCodePoint(c) : '';
        const plain = text !== '' && !INVISIBLE.test(text) && !MARK.test(text) && !contents?.isEscaped(c);
        const joined = open && text !== '' && (holdsEmoji(codepoints, at) || (MARK.test(text) && !INVISIBLE.test(text) && !contents?.isEscaped(c)));
        add(plain || joined ? text : numbered(c), !(plain || joined));
        open = (plain && c !== STOP) || joined;
    });
    return pieces;
}

/** The labels of a name: where each starts and ends. */
export function labelsOf(codepoints) {
    if (codepoints.length === 0) return [];
    const stops = [...codepoints.keys()].filter((at) => codepoints[at] === STOP);
    const starts = [0, ...stops.map((at) => at + 1)];
    return starts.map((start, i) => ({ start, end: stops[i] ?? codepoints.length }));
}

/** The emoji at a place, by the engine: how many codepoints it takes, or 0. */
function emojiAt(desk, codepoints, at, end) {
    if (!desk.contents.startsEmoji(codepoints[at])) return 0;
    const found = desk.table.emoji(String.fromCodePoint(...codepoints.slice(at, Math.min(end, at + 64))));
    return found.accepted && found.found ? found.taken : 0;
}

/** What became of one codepoint, or of an emoji of so many. */
function part(desk, codepoints, at, taken) {
    const from = codepoints.slice(at, at + Math.max(taken, 1));
    const fate = taken > 0 ? { how: 'emoji', to: from.filter((c) => c !== SELECTOR) } : desk.contents.fate(from[0]);
    return { start: at, end: at + from.length, from, ...fate };
}

/** The tokens of an accepted name, by the engine's report. Ignored codepoints count to the token before them, or to the first one. */
function reported(desk, text, codepoints) {
    const report = desk.table.report(text, desk.options);
    if (!report.accepted) return [];
    return report.lines.map((line) => {
        const [kind, first, last, ...output] = line.split(' ');
        const [start, end] = [Number(first), Number(last)];
        const parts = [];
        for (let at = start; at < end; at = parts.at(-1).end) {
            const due = kind === 'emoji' && !parts.some(({ how }) => how === 'emoji');
            parts.push(part(desk, codepoints, at, due ? emojiAt(desk, codepoints, at, end) : 0));
        }
        const after = output.map((word) => ({ codepoint: parseInt(word.replace(/[{}]/g, ''), 16), escaped: word.startsWith('{') }));
        return { kind, start, end, parts, output: after };
    });
}

/** The tokens of a refused name, as far as they go: emoji by the engine, all else by the table's contents. */
function looked(desk, codepoints) {
    const tokens = [];
    for (const { start, end } of labelsOf(codepoints)) {
        let open = null; // the text token that goes on
        for (let at = start; at < end && at < LOOKED_THROUGH; at = tokens.at(-1).end) {
            const taken = emojiAt(desk, codepoints, at, end);
            if (taken > 0 || open === null) tokens.push({ kind: taken > 0 ? 'emoji' : 'text', start: at, end: at, parts: [] });
            open = taken > 0 ? null : tokens.at(-1);
            tokens.at(-1).parts.push(part(desk, codepoints, at, taken));
            tokens.at(-1).end = tokens.at(-1).parts.at(-1).end;
        }
    }
    return tokens;
}

/** The name of a group: `Latin`, or `group 0` where the table came without names. */
export const groupName = (desk, number) => desk.groups[number] ?? `group ${number}`;

function kindOf(desk, label) {
    if (label.kind === 'emoji') return 'emoji alone';
    if (label.kind === 'ascii') return 'ASCII';
    return groupName(desk, label.group);
}

/** The number of the Greek group: by its name, or, where the table came without names, the first group with alpha; else one beyond the last. */
export function greekOf({ groups, contents }) {
    if (groups.includes('Greek')) return groups.indexOf('Greek');
    return (groups.length === 0 ? contents.groupsOf(ALPHA)[0] : undefined) ?? contents.groups.length;
}

/** The screen form (Item 1). */
export function screenOf(desk, text) {
    return desk.table.screen(text, { ...desk.options, greek: greekOf(desk) });
}

/** The name's answer and its hash by one call; the hash's own 4, which only a table that is not sound can give, leaves the name's answer alone. */
function named(desk, text) {
    const hashed = desk.table.namehash(text, desk.options);
    return !hashed.accepted && hashed.refusal.number === 4 ? desk.table.normalise(text, desk.options) : hashed;
}

function accepted(desk, text, codepoints, name) {
    const labels = labelsOf(name.codepoints).map(({ start, end }) => {
        const form = name.codepoints.slice(start, end);
        const label = name.form === null ? null : desk.table.label(textOf(form), desk.options);
        return { codepoints: form, kind: label?.accepted ? kindOf(desk, label) : 'not told by this table', restricted: label?.restricted ?? null };
    });
    return {
        accepted: true,
        form: name.form,
        codepoints: name.codepoints,
        labels,
        screen: screenOf(desk, text),
        hash: name.node ? `0x${hexBytes(name.node)}` : null,
        changed: name.form !== text,
        tokens: reported(desk, text, codepoints),
    };
}

/** The characters of a label's text, each once: what the mappings and NFC make of all that no emoji takes. */
function charactersOf(desk, label) {
    const texts = [[]];
    for (let at = 0; at < label.length; ) {
        const taken = emojiAt(desk, label, at, label.length);
        if (taken > 0) texts.push([]);
        else texts.at(-1).push(...desk.contents.fate(label[at]).to);
        at += Math.max(taken, 1);
    }
    const formed = texts.flatMap((text) => {
        const form = textOf(text) === null ? null : desk.table.nfc(textOf(text));
        return form?.accepted ? form.codepoints : text;
    });
    return [...new Set(formed)];
}

/** What stands behind a 12: each character of the label's text with its groups, the characters in the fewest groups first. */
function behind12(desk, label) {
    const own = charactersOf(desk, label).map((codepoint) => ({ codepoint, groups: desk.contents.groupsOf(codepoint).map((g) => groupName(desk, g)) }));
    return own.sort((a, b) => a.groups.length - b.groups.length);
}

/** What stands behind a 14: the groups in which the label could be respelled, and the characters that look like its confused ones. */
function behind14(desk, label) {
    const list = desk.table.respelled(String.fromCodePoint(...label));
    const alike = charactersOf(desk, label).map((codepoint) => ({ codepoint, alike: desk.contents.lookalikes(codepoint) })).filter((entry) => entry.alike.length > 0);
    return { groups: list.accepted ? list.groups.map((g) => groupName(desk, g)) : [], alike };
}

function refused(desk, codepoints, { number, place, text }) {
    const [rule, help] = RULES[number] ?? [text, ''];
    const found = { accepted: false, number, place, text, rule, help, tokens: looked(desk, codepoints) };
    if (number === 4 || number === 5) {
        const label = labelsOf(codepoints).findIndex(({ end }) => place < end);
        return { ...found, start: place, end: place + 1, label, codepoint: codepoints[place] };
    }
    if ((number >= 6 && number <= 14) || number === 16 || number === 17) {
        const { start, end } = labelsOf(codepoints)[place];
        const label = codepoints.slice(start, end);
        const more = number === 12 ? { characters: behind12(desk, label) } : number === 14 ? behind14(desk, label) : {};
        return { ...found, start, end, label: place, ...more };
    }
    return { ...found, start: 0, end: 0, label: null };
}

/** Judges a name. `desk` has `library`, `table`, `contents`, the names of its `groups` and the `options` of the calls. */
export function judge(desk, text) {
    const codepoints = codepointsOf(text);
    const part = desk.library.trim(text);
    const name = named(desk, text);
    const found = name.accepted ? accepted(desk, text, codepoints, name) : refused(desk, codepoints, name.refusal);
    const blanks = { front: part.start, back: codepoints.length - part.start - part.length, without: part.text };
    return { input: codepoints, blanks, ...found };
}
