// Compares two WebAssembly modules of the library on two reports: `node --single-threaded modules.mjs ONE OTHER LEFT RIGHT`. Prints for
// each call the least processor time of both modules in milliseconds, which are called in turn, and the second over the first. The
// first calls don't count, in which the engine compiles the module.
import { readFileSync } from 'node:fs';

const [one, other, ...files] = process.argv.slice(2);
const reports = files.map((file) => readFileSync(file));
const RUNS = 60;
const UNCOUNTED = 5;
const CALLS = {
    check: ({ erd, left, answer }) => erd.erd_check(...left, 0, answer, answer + 4),
    canon: ({ erd, left, answer }) => erd.erd_canonical(...left, 0, answer, answer + 4),
    compare: ({ erd, left, right, answer }) => erd.erd_compare(...left, ...right, 0, answer, answer + 4),
};

/** A module with both reports in its memory, and room for an answer. */
function loaded(file) {
    const erd = new WebAssembly.Instance(new WebAssembly.Module(readFileSync(file))).exports;
    const [left, right] = reports.map((bytes) => {
        const place = erd.erd_malloc(bytes.length);
        new Uint8Array(erd.memory.buffer, place >>> 0, bytes.length).set(bytes);
        return [place, bytes.length];
    });
    return { erd, left, right, answer: erd.erd_malloc(8) };
}

/** The milliseconds of processor time of one call. */
function timed(module, call) {
    const before = process.cpuUsage();
    call(module);
    const { user } = process.cpuUsage(before);
    module.erd.erd_free(new Uint32Array(module.erd.memory.buffer, module.answer, 1)[0]);
    return user / 1000;
}

const modules = [one, other].map(loaded);
for (const [name, call] of Object.entries(CALLS)) {
    const times = modules.map(() => []);
    for (let run = -UNCOUNTED; run < RUNS; run++) {
        modules.forEach((module, at) => {
            const time = timed(module, call);
            if (run >= 0) times[at].push(time);
        });
    }
    const [first, second] = times.map((each) => Math.min(...each));
    console.log(`${name} ${first.toFixed(1)} ${second.toFixed(1)} ${(second / first).toFixed(3)}`);
}
