// Tries what a caller of the module of bindings/js can do wrong, in this process: wrong arguments, reports that are too long, and memory
// that is refused. One line for each case that fails; at the end stand the counts.
import { readFileSync } from 'node:fs';
import { Erd, load, MOST_BYTES, NoMemoryError, TooLongError, TrapError } from '../../bindings/js/index.mjs';
import { statusOf } from '../../bindings/js/lib/ending.mjs';
import { withMostPages } from '../shared/less_memory.mjs';
import { counts, equal, throws } from './counted.mjs';

const MODULE = readFileSync(new URL('../../out/portable/erd.wasm', import.meta.url));
const [bytes, form, accepted] = ['small-ballot.json', 'small-ballot.canonical.json', 'one-unit.json']
    .map((name) => readFileSync(new URL(`../../examples/${name}`, import.meta.url)));
const erd = await load(MODULE);

// Wrong arguments.
const NO_REPORTS = {
    nothing: undefined, null: null, 'a number': 5, 'an array': [1], 'an object': {}, 'wide numbers': new Uint16Array(2),
};
const NO_REPORT = 'is neither a Uint8Array, nor an ArrayBuffer, nor a text';
for (const [name, wrong] of Object.entries(NO_REPORTS)) {
    throws(`${name} as a report`, TypeError, () => erd.check(wrong), `the report ${NO_REPORT}`);
    throws(`${name} as the right report`, TypeError, () => erd.compare(bytes, wrong), `the right report ${NO_REPORT}`);
}
// Each call with a report, by the words of its error for what is none.
const TAKING = {
    'the report': [(it) => erd.check(it), (it) => erd.canonical(it), (it) => erd.ballots(it), (it) => erd.ballot(it, 0), (it) => erd.words(it),
        (it) => erd.prepared(it, ''), (it) => [...erd.checkedByPieces(it)], (it) => [...erd.wordsByPieces(it)]],
    'the left report': [(it) => erd.compare(it, bytes), (it) => erd.differences(it, bytes), (it) => erd.differencesUpTo(1, it, bytes),
        (it) => [...erd.differencesByPieces(it, bytes)], (it) => erd.ballotDifferences(it, bytes), (it) => erd.ballotsBeside(it, bytes, 0, 0)],
    'a report': [(it) => [...erd.written('check', [it])], (it) => erd.writtenAsJson('check', [it])],
};
for (const [what, takers] of Object.entries(TAKING)) {
    takers.forEach((take) => throws(`no report: ${take}`, TypeError, () => take(5), `${what} ${NO_REPORT}`));
}
const HALF = 'has half a surrogate pair, so it has no form in UTF-8';
throws('half a surrogate pair', TypeError, () => erd.check('"\ud800"'), `the report ${HALF}`);
throws('options that are a text', TypeError, () => erd.check(bytes, 'fips'), 'the options are not an object');
throws('options that are null', TypeError, () => erd.check(bytes, null), 'the options are not an object');
throws('an unknown option', TypeError, () => erd.check(bytes, { preferred: 'fips' }), 'no option has the name "preferred"');
for (const [name, most] of [['a text', '5'], ['below 0', -1], ['half a fault', 0.5], ['2^32', 2 ** 32]]) {
    throws(`a number of faults that is ${name}`, TypeError, () => erd.check(bytes, { mostFaults: most }), 'mostFaults is neither a whole number nor null');
}
equal('the largest number of faults', erd.check('{}', { mostFaults: 2 ** 32 - 1 }).faults.length, 1);
throws('a number of faults for a list of differences', TypeError, () => erd.differences(bytes, bytes, { mostFaults: 5 }),
    'no option has the name "mostFaults"');
throws('a preference that is a number', TypeError, () => erd.check(bytes, { prefer: 5 }), 'prefer is not a text');
throws('a preference with a zero character', TypeError, () => erd.check(bytes, { prefer: 'a\0b' }), 'prefer has a zero character');
throws('a preference with half a surrogate pair', TypeError, () => erd.check(bytes, { prefer: '\udc00' }), `prefer ${HALF}`);
// Each call takes the option that is its own.
equal('the bounds of the other calls', [erd.ballots(bytes, { mostFaults: 1 }).accepted, erd.ballotDifferences(bytes, bytes, { mostFaults: 1 }).same,
    [...erd.written('check', [bytes], { mostFaults: 1 })].length, [...erd.checkedByPieces(bytes, { mostFaults: 1 })].length,
    [...erd.differencesByPieces(bytes, bytes, { mostDifferences: 1 })].length, [...erd.wordsByPieces(bytes, { mostEntries: 1 })].length,
    erd.writtenAsJson('check', [bytes], { mostFaults: 1 }).status, erd.differencesUpTo(1, bytes, bytes, { mostDifferences: 1 }).same].join(),
'true,true,1,1,1,1,0,true');

// The limit on bytes.
const long = new Uint8Array(MOST_BYTES + 1).fill(0x20);
for (const take of Object.values(TAKING).flat()) {
    throws(`too long: ${take}`, TooLongError, () => take(long), 'too long: a report may have at most 67108864 bytes');
}
throws('too long on the right', TooLongError, () => erd.compare(bytes, long));
equal('the most bytes', erd.check(long.subarray(1)).outcome, 'not JSON');
equal('a call after that', erd.check(bytes).outcome, 'accepted');

// Memory that is refused: the same module with less memory. The next call goes on with a fresh instance.
const PAGES = 200;
const poor = await load(withMostPages(MODULE, PAGES));
const large = Buffer.concat([Buffer.from('['), Buffer.alloc(PAGES * 60_000, '0,'), Buffer.from('0]')]);
throws('no memory for the bytes', NoMemoryError, () => poor.check(new Uint8Array(PAGES * 65_536)));
throws('no memory to read them', NoMemoryError, () => poor.check(large.subarray(0, PAGES * 20_000)), 'no memory: the call ran out of memory');
throws('no memory for pieces of lines', NoMemoryError, () => [...poor.written('check', [large.subarray(0, PAGES * 20_000)])]);
throws('no memory for steps', NoMemoryError, () => poor.prepared(large.subarray(0, PAGES * 20_000), ''));
throws('no memory for words', NoMemoryError, () => poor.commandLine(['w'.repeat(PAGES * 65_536)]));
// How a command ends that could not judge: never as one that has refused a file.
const endings = [new NoMemoryError(), new RangeError('Invalid typed array length'), new TooLongError(), new Error('odd')];
const statuses = [];
for (const error of endings) {
    statuses.push(await statusOf(() => { throw error; }));
}
equal('the statuses of commands that fail', statuses.join(' '), '4 4 3 3');
equal('a call after that', poor.canonical(bytes).text, form.toString());
equal('the same call with memory', erd.check(large).outcome, 'refused');
// A call that traps leaves its instance behind, and the next one begins with another. A call that ends well keeps its own.
const real = WebAssembly.Instance;
let instances = 0;
let traps = false;
WebAssembly.Instance = class {
    constructor(...words) {
        const { exports } = new real(...words);
        instances++;
        this.exports = {
            ...exports,
            erd_check_data_piece(...arguments_) {
                if (traps) {
                    throw new WebAssembly.RuntimeError('unreachable');
                }
                return exports.erd_check_data_piece(...arguments_);
            },
        };
    }
};
const trapping = await load(MODULE);
trapping.check(bytes);
trapping.check(bytes);
equal('one instance for two calls', instances, 1);
traps = true;
throws('a call that traps', TrapError, () => trapping.check(bytes), 'trap: the module stopped: unreachable');
traps = false;
equal('a call after a trap', trapping.check(bytes).outcome, 'accepted');
equal('another instance after a trap', instances, 2);
// An instance gives back what a call took, and is kept up to 64 MB: here 70 calls of each kind take and write a megabyte each.
const wideReport = accepted.toString().replace('"Test"', `"${'t'.repeat(2 ** 20)}"`);
for (let turn = 0; turn < 70; turn++) {
    trapping.canonical(wideReport);
    trapping.prepared(wideReport, '');
    trapping.ballots(wideReport);
    [...trapping.written('canon', [wideReport])];
    trapping.commandLine(['w'.repeat(2 ** 20)]);
}
trapping.check(bytes);
equal('one instance for many calls', instances, 2);
const frugal = new Erd(await WebAssembly.compile(MODULE), 1);
frugal.check(bytes);
[...frugal.checkedByPieces(bytes)];
frugal.check(bytes);
equal('none is kept that has more bytes than are to be kept', instances, 5);
// The module answers with the place 0 where it has no memory for what it is handed, or for a list. Nothing is written or read there.
for (const [name, call] of [
    ['erd_malloc', (it) => it.check(bytes)], ['erd_malloc', (it) => it.prepared(bytes, '')], ['erd_malloc', (it) => it.commandLine(['check'])],
    ['erd_malloc', (it) => [...it.checkedByPieces(bytes)]], ['erd_open', (it) => [...it.checkedByPieces(bytes)]],
]) {
    WebAssembly.Instance = class {
        constructor(...words) {
            this.exports = { ...new real(...words).exports, [name]: () => 0 };
        }
    };
    const empty = await load(MODULE);
    throws(`no memory by ${name}: ${call}`, NoMemoryError, () => call(empty));
}
WebAssembly.Instance = real;

// Where a page loads the module, it is fetched from beside index.mjs. What a server says in its place is no module.
const [RealURL, realFetch] = [URL, globalThis.fetch];
globalThis.URL = class extends RealURL {
    constructor(name) {
        super(name, 'https://office.example/erd/index.mjs');
    }
};
for (const [name, answer, wanted] of [
    ['a module', new Response(MODULE), 'accepted'],
    ['no module', new Response('none', { status: 404 }), 'https://office.example/erd/erd.wasm could not be read: status 404'],
    ['no module, but a page that says so', new Response(MODULE, { status: 403 }), 'https://office.example/erd/erd.wasm could not be read: status 403'],
]) {
    globalThis.fetch = async () => answer;
    equal(`a server has ${name}`, await load().then((it) => it.check(bytes).outcome, ({ message }) => message), wanted);
}
[globalThis.URL, globalThis.fetch] = [RealURL, realFetch];

equal('the names and codes of errors',
    [new TrapError(new Error('why')), new TooLongError(), new NoMemoryError()].map(({ name, code }) => `${name} ${code}`).join(),
    'TrapError TRAP,TooLongError TOO_LONG,NoMemoryError NO_MEMORY');
const cause = new Error('why');
equal('the cause of a trap', new TrapError(cause).cause, cause);
counts();
