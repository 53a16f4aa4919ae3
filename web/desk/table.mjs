// What stands in a table, read from its words for the page: its sections, and what they say of one codepoint. The engine judges names; this only
// shows why. Where entries overlap, the first one counts.

/** The sections of a table in their order, and how their entries are laid out. */
const LAYOUT = [
    ['valid characters', 'pairs'],
    ['ignored characters', 'pairs'],
    ['fenced characters', 'pairs'],
    ['marks', 'pairs'],
    ['nonspacing marks', 'pairs'],
    ['mapped characters', 'headed'],
    ['decompositions', 'headed'],
    ['emoji sequences', 'counted'],
    ['exclusions from composition', 'counted'],
    ['classes', 'triples'],
    ['groups', 'groups'],
    ['look-alikes (wholes)', 'wholes'],
    ['characters shown by their numbers', 'pairs'],
    ['characters that NFC may change (quick check)', 'pairs'],
];

const readers = {
    pairs: (words, at) => [{ first: words[at], last: words[at + 1] }, at + 2],
    triples: (words, at) => [{ first: words[at], last: words[at + 1], value: words[at + 2] }, at + 3],
    headed: (words, at) => [{ head: words[at], items: [...words.subarray(at + 2, at + 2 + words[at + 1])] }, at + 2 + words[at + 1]],
    counted: (words, at) => [{ items: [...words.subarray(at + 1, at + 1 + words[at])] }, at + 1 + words[at]],
    groups: (words, at) => {
        const end = at + 2 + words[at + 1];
        const [list, next] = (words[at] & 4) === 4 ? sequences(words, end) : [null, end];
        return [{ restricted: (words[at] & 1) === 1, whitelisted: (words[at] & 2) === 2, pairs: entries('pairs', words.subarray(at + 2, end)), list }, next];
    },
    wholes: (words, at) => {
        const middle = at + 1 + words[at];
        const end = middle + 1 + words[middle];
        return [{ valid: [...words.subarray(at + 1, middle)], confused: [...words.subarray(middle + 1, end)] }, end];
    },
};

/** The list of a group, which starts with its count, and the place behind it. */
function sequences(words, start) {
    const found = [];
    let at = start + 1;
    for (let left = words[start]; left > 0; left -= 1) {
        const [{ items }, next] = readers.counted(words, at);
        found.push(items);
        at = next;
    }
    return [found, at];
}

function entries(kind, words) {
    const found = [];
    for (let at = 0; at < words.length; ) {
        const [entry, next] = readers[kind](words, at);
        found.push(entry);
        at = next;
    }
    return found;
}

const holds = (pairs, c) => pairs.some(({ first, last }) => first <= c && c <= last);

/** A table whose layout the engine found no fault with. */
export class Contents {
    constructor(words) {
        this.sections = [];
        let at = 0;
        for (const [name, kind] of LAYOUT) {
            const body = words.subarray(at + 1, at + 1 + words[at]);
            this.sections.push({ name, words: body.length, entries: entries(kind, body) });
            at += 1 + body.length;
        }
        const [valid, ignored, , , , mapped, , emoji, , , groups, wholes, escaped] = this.sections.map((s) => s.entries);
        Object.assign(this, { valid, ignored, groups, wholes, escaped });
        this.starts = new Set(emoji.flatMap(({ items }) => items.slice(0, 1 + items.findIndex((c) => c !== 0xfe0f))));
        this.mapped = new Map(mapped.toReversed().map(({ head, items }) => [head, items]));
    }

    /** What becomes of a codepoint that no emoji takes. */
    fate(c) {
        if (holds(this.valid, c)) return { how: 'kept', to: [c] };
        if (this.mapped.has(c)) return { how: 'mapped', to: this.mapped.get(c) };
        if (holds(this.ignored, c)) return { how: 'ignored', to: [] };
        return { how: 'disallowed', to: [] };
    }

    /** Whether an emoji sequence can start with it, each FE0F being optional. */
    startsEmoji(c) {
        return this.starts.has(c);
    }

    /** Whether it is better shown by its number. */
    isEscaped(c) {
        return holds(this.escaped, c);
    }

    /** The numbers of the groups that hold a codepoint. */
    groupsOf(c) {
        return this.groups.flatMap(({ pairs }, number) => (holds(pairs, c) ? [number] : []));
    }

    /** The characters of a confused character's whole, but itself; none where it is not confused. */
    lookalikes(c) {
        const whole = this.wholes.find(({ confused }) => confused.includes(c));
        return whole ? [...whole.valid, ...whole.confused].filter((other) => other !== c) : [];
    }
}

/** What the rules of the soundness check ask; 0 is the layout. */
export const SOUNDNESS_RULES = [
    'The words are not laid out as a table.',
    'Every codepoint that is named is a Unicode scalar value.',
    'Valid are exactly the characters of the groups and those of their full decompositions; the full stop and FE0F are not among them.',
    'Every character that a mapping gives is valid.',
    'No emoji sequence holds a full stop, starts with FE0F or has two FE0F together; without FE0F no two are equal.',
    'No valid character is by itself an emoji sequence, and where a sequence starts with another one or with a valid character, the next codepoint is neither valid nor the first of a sequence.',
    'Four rounds decompose fully; no character is decomposed twice; ASCII, Hangul syllables and jamo are not decomposed and have no other class than 0.',
    'No two composition pairs are equal, and none is a pair of Hangul.',
    'The quick-check set is empty, or holds every codepoint that is not its own NFC and every one whose full decomposition starts with the second item of a composition pair, Hangul included.',
];
