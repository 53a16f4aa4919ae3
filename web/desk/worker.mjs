// The long jobs of the page, in a worker that can be ended: lists of names, soundness, two tables over a list.
import { load } from '../wanlopheng.mjs';
import { differs, row } from './lists.mjs';

const PIECE = 100; // names between two words of progress

/** The jobs: each is handed tables and what else it needs, and a function that says how far it is. */
export const JOBS = {
    soundness: ({ tables }) => tables[0].soundness(),
    names: ({ tables, names, options }, say) => inPieces(names, say, (name, i) => row({ table: tables[0], options }, name, i)),
    compare: ({ tables, names, options }, say) =>
        inPieces(names, say, (name, i) => {
            const [first, second] = tables.map((table) => row({ table, options }, name, i));
            return differs(first, second) ? { index: i, name, first, second } : null;
        }),
};

function inPieces(names, say, judged) {
    for (let from = 0; from < names.length; from += PIECE) {
        const rows = names.slice(from, from + PIECE).map((name, i) => judged(name, from + i));
        say({ done: Math.min(from + PIECE, names.length), rows: rows.filter((r) => r !== null) });
    }
    return null;
}

/** Does a job that the page sent. */
export async function work({ job, module, tables, ...given }, say) {
    const library = await load(module);
    return JOBS[job]({ tables: tables.map((words) => library.tableOfWords(words)), ...given }, say);
}

if (typeof WorkerGlobalScope === 'function' && globalThis instanceof WorkerGlobalScope) {
    globalThis.onmessage = async ({ data }) => {
        try {
            globalThis.postMessage({ answer: await work(data, (progress) => globalThis.postMessage({ progress })) });
        } catch (fault) {
            globalThis.postMessage({ fault: fault.message });
        }
    };
}
