// Answers many calls of erd.wasm in one process, as tests/forms/caller.c does for the other forms: `node wasm_caller.mjs ERD.WASM`,
// with a call on each line of standard input.
import { readFileSync, writeSync } from 'node:fs';

const CALLS = {
    check: 'erd_check', canon: 'erd_canonical', compare: 'erd_compare',
    check_data: 'erd_check_data', compare_data: 'erd_compare_data',
    differences: 'erd_differences', differences_data: 'erd_differences_data', differences_values: 'erd_differences_values',
    prepare: 'erd_prepare',
};
// The calls that have a whole list where they get no piece.
const LISTS = new Set(['differences', 'differences_data', 'differences_values']);

const module = new WebAssembly.Module(readFileSync(process.argv[2]));
if (WebAssembly.Module.imports(module).length > 0) throw new Error('erd.wasm has imports');
const erd = new WebAssembly.Instance(module).exports;

function put(bytes) {
    const place = erd.erd_malloc(bytes.length + 1);
    if (place === 0) throw new Error('no memory');
    const room = new Uint8Array(erd.memory.buffer, place >>> 0, bytes.length + 1);
    room.set(bytes);
    room[bytes.length] = 0;
    return place;
}

function ask(name, prefer, files) {
    const given = files.map((file) => readFileSync(file)).map((bytes) => [put(bytes), bytes.length]);
    const preferred = prefer === '-' ? 0 : put(Buffer.from(prefer.slice(1), 'hex'));
    const answer = erd.erd_malloc(8);
    // The whole of a list; and of a preparation what other steps would do too.
    const more = LISTS.has(name) ? [0] : name === 'prepare' ? [1] : [];
    const outcome = erd[CALLS[name]](...given.flat(), preferred, ...more, answer, answer + 4);
    const [text, length] = new Uint32Array(erd.memory.buffer, answer, 2);
    const found = Buffer.from(erd.memory.buffer, text, length);
    const written = Buffer.concat([Buffer.from(`${outcome} ${length}\n`), found]);
    erd.erd_free(text);
    for (const place of [answer, preferred, ...given.map(([at]) => at)]) erd.erd_free(place);
    return written;
}

const answers = [];
for (const line of readFileSync(0, 'utf8').split('\n').filter((line) => line !== '')) {
    const [name, prefer, ...files] = line.split('\t');
    answers.push(ask(name, prefer, files));
}
const all = Buffer.concat(answers);
for (let at = 0; at < all.length;) at += writeSync(1, all, at);
