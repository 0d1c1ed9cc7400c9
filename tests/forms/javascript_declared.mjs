// Holds the declarations of the package for JavaScript against the package: each name that they export is there, and each result has
// the members that its declaration names, and no others. One line for each case that fails; at the end stand the counts.
import { readFileSync } from 'node:fs';
import * as erdModule from '../../bindings/js/index.mjs';
import * as prepareModule from '../../bindings/js/lib/prepare/prepared.mjs';
import { counts, equal } from './counted.mjs';

const TOP = new URL('../../', import.meta.url);
const [index, prepare] = ['index.d.ts', 'prepare.d.ts'].map((name) => readFileSync(new URL(`bindings/js/${name}`, TOP), 'utf8'));
const [left, right, raw] = ['county.vendor-a', 'small-ballot', 'municipal.raw'].map((name) => readFileSync(new URL(`examples/${name}.json`, TOP)));

/** The members of a declaration, those of what it extends in front: the names of those that each object has, and of those that it may have. */
function declared(text, name) {
    const [, parent, body] = new RegExp(`^export (?:interface|class) ${name}\\b(?: extends (\\w+))?[^{\\n]*\\{\\n([^]*?)^\\}`, 'm').exec(text);
    const members = [...body.matchAll(/^ {4}(?:readonly )?(\w+)(\??): /gm)];
    const [always, mayBe] = ['', '?'].map((wanted) => members.filter(([, , mark]) => mark === wanted).map(([, it]) => it));
    if (parent === undefined || !new RegExp(`^export class ${parent}\\b`, 'm').test(text)) {
        return { always, mayBe };
    }
    const inherited = declared(text, parent);
    return { always: [...inherited.always, ...always], mayBe: [...inherited.mayBe, ...mayBe] };
}

/** An object has the members of a declaration: all that each has, and none besides but those that it may have. */
function has(text, name, object) {
    const { always, mayBe } = declared(text, name);
    equal(`the members of ${name}`, Object.keys(object).filter((it) => !mayBe.includes(it)).sort().join(), [...new Set(always)].sort().join());
}

// Types have no value: only functions, classes and constants are there when a program runs.
for (const [name, text, module] of [['erd', index, erdModule], ['erd/prepare', prepare, prepareModule]]) {
    const names = [...text.matchAll(/^export (?:function|const|class) (\w+)/gm)].map(([, it]) => it);
    equal(`what ${name} declares is there`, names.filter((it) => module[it] === undefined).join(), '');
}

const erd = await erdModule.load(await WebAssembly.compile(readFileSync(new URL('out/portable/erd.wasm', TOP))));
const methods = [...index.split('export class Erd {')[1].split('\n}')[0].matchAll(/^ {4}(\w+)(?:<T>)?\(/gm)].map(([, it]) => it);
equal('the calls', methods.length > 10 && methods.filter((it) => typeof erd[it] !== 'function').join(), '');
for (const name of ['Checked', 'Canonical', 'Compared', 'Differences']) {
    equal(`the text of ${name}`, 'text' in erdModule[name].prototype, true);
}

const other = left.toString().replace('Ingrith', 'Ingrid');
const head = erd.ballots(left).ballots[0];
const entries = erd.words(left, { mostEntries: null }).entries;
for (const [name, object] of Object.entries({
    Checked: erd.check('{}'), Canonical: erd.canonical(left), Compared: erd.compare(left, other), Differences: erd.differences(left, other),
    Fault: erd.check('{}').faults[0], Difference: erd.differences(left, other).differences[0], Ballots: erd.ballots(left), BallotHead: head,
    OneBallot: erd.ballot(left, head.position), BallotLine: erd.ballot(left, head.position).ballot.lines[0],
    BallotDifferences: erd.ballotDifferences(left, right), BallotsBeside: erd.ballotsBeside(left, left, 0, 0), WordList: erd.words(left),
    ObjectWords: entries.find(({ part }) => part === 'contest'), CommandRequest: erd.commandLine(['prepare', 'a']).request,
    RepeatedName: erdModule.repeatedNames('{"a":1,"a":2}')[0],
})) {
    has(index, name, object);
}
equal('the members of RepeatedNames', Object.getOwnPropertyNames(erdModule.repeatedNames('[]')).sort().join(),
    ['length', ...declared(index, 'RepeatedNames').always].sort().join());

const { steps } = new prepareModule.Preparation(Buffer.from(raw.toString().replace('{', '{"Rank":1.50,')), erd).prepare(prepareModule.stepsOf('removed'));
const [change, number] = [true, false].map((isPlace) => steps.flatMap(({ made }) => made).find((it) => 'place' in it === isPlace));
for (const [name, object] of Object.entries({
    Step: prepareModule.STEPS[0], Done: steps[0], Change: change, ChangedNumber: number,
    Copy: prepareModule.comparePrepared(left, left, [], erd).left,
})) {
    has(prepare, name, object);
}
counts();
