// Calls erd.wasm many times: `node wasm_memory.mjs ERD.WASM REPORT COUNT`. Says where the memory has grown after the second
// call, and where a call without memory doesn't say so, or a call fails when memory is back.
import { readFileSync } from 'node:fs';

const [wasm, report, count] = process.argv.slice(2);
const GOOD = 0;
const NO_MEMORY = 4;
const erd = new WebAssembly.Instance(new WebAssembly.Module(readFileSync(wasm))).exports;
const bytes = readFileSync(report);
const place = erd.erd_malloc(bytes.length);
new Uint8Array(erd.memory.buffer, place >>> 0, bytes.length).set(bytes);
const answer = erd.erd_malloc(8);

function outcome(name) {
    const found = erd[name](place, bytes.length, 0, answer, answer + 4);
    erd.erd_free(new Uint32Array(erd.memory.buffer, answer, 1)[0]);
    return found;
}

function expect(name, wanted, when) {
    const found = outcome(name);
    if (found !== wanted) console.log(`${name} ${when}: outcome ${found}, not ${wanted}`);
}

const sizes = [];
while (sizes.length < Number(count) / 2) {
    expect('erd_check', GOOD, 'with memory');
    expect('erd_canonical', GOOD, 'with memory');
    sizes.push(erd.memory.buffer.byteLength);
}
if (sizes.at(-1) !== sizes[1]) console.log(`${sizes[1]} bytes after the second call, ${sizes.at(-1)} at the end`);

// All memory but 64 kB is taken. Nothing is written there, so the machine need not have it.
const taken = [];
for (let size = 2 ** 30; size >= 2 ** 16; size /= 2) {
    for (let room = erd.erd_malloc(size); room !== 0; room = erd.erd_malloc(size)) taken.push(room);
}
expect('erd_check', NO_MEMORY, 'without memory');
expect('erd_canonical', NO_MEMORY, 'without memory');
taken.forEach((room) => erd.erd_free(room));
expect('erd_check', GOOD, 'with memory again');
