// Runs the C test programs of a wasm module in node: node calls.mjs MODULE FUNCTION FOLDER. The files that the program reads and writes are in the
// folder. Status: the program's.
import { readFileSync, writeFileSync } from 'node:fs';
import { join } from 'node:path';

const [, , path, name, folder] = process.argv;
let memory;
const text = (at) => {
    const bytes = new Uint8Array(memory.buffer, at);
    return Buffer.from(bytes.subarray(0, bytes.indexOf(0))).toString();
};
const env = {
    port_read(file, to, most) {
        const bytes = readFileSync(join(folder, text(file)));
        if (bytes.length >= most) return 0;
        new Uint8Array(memory.buffer, to, bytes.length).set(bytes);
        return bytes.length;
    },
    port_write(file, from, count) {
        writeFileSync(join(folder, text(file)), new Uint8Array(memory.buffer, from, count));
        return 1;
    },
};
const { instance } = await WebAssembly.instantiate(readFileSync(path), { env });
memory = instance.exports.memory;
process.exit(instance.exports[name]());
