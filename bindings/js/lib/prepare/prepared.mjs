// Prepares a report: the proved code does the steps, and this hands on what it tells.
import { NotJson } from '../scanner.mjs';
import { compactText, hasMark, readTree, withoutMark } from '../tree.mjs';
import { pointerOf, wordsOf } from '../words.mjs';
import { REMEDIES, STEP_WORDS } from './step_words.mjs';

/** The step that concerns the bytes and not the tree. The proved code takes bytes without a mark. */
export const MARK_STEP = 'byte-order-mark';

/** What is told of numbers that change because the report is read and written again. No step does it, and none can be chosen. */
export const NUMBERS = 'numbers';

/** Every step in order: its name, its group (`removed`, `filled-in`, `visible` or `view`) and its words. */
export const STEPS = Object.entries(STEP_WORDS).map(([name, [group, title, does, loses]]) => ({ name, group, title, does, loses }));

/** The names of the steps of these groups. */
export function stepsOf(...groups) {
    return STEPS.filter(({ group }) => groups.includes(group)).map(({ name }) => name);
}

/** What to do about a fault that is left, by the number of its reason: the steps that may fix it, and what to ask the vendor for. */
export function remedyOf(reason) {
    const [steps, letter] = REMEDIES[reason];
    return { steps, letter };
}

/** The line that `erd prepare` writes about a reason that is left. */
export function lineOfRemedy(reason) {
    const { steps, letter } = remedyOf(reason);
    const ways = steps.length === 0 ? 'no step fixes it; ask' : `steps that may fix it: ${steps.join(', ')}; otherwise ask`;
    return `reason ${reason} (${wordsOf(reason)}): ${ways} the vendor: ${letter}`;
}

/** A file that is being prepared. */
export class Preparation {
    /**
     * @param {Uint8Array} bytes
     * @param {import('../calls.mjs').Erd} erd what `load` has made
     */
    constructor(bytes, erd) {
        this.bytes = bytes;
        this.erd = erd;
        this.hasMark = hasMark(bytes);
    }

    /**
     * Does these steps, in the fixed order, on a copy. Each step that changes or leaves something is told; with `tellsOthers` those too
     * that are not done: what they would do at their turn. The copy is compact JSON, with the members of each object in the order of their
     * names. If a number is written in another way there, that is told first. A file of which no step changes anything keeps its bytes.
     * @param {Iterable<string>} names
     * @throws {NotJson} if the bytes are not JSON behind a byte order mark
     */
    prepare(names, { tellsOthers = false } = {}) {
        const chosen = new Set(names);
        const unknown = [...chosen].find((name) => !Object.hasOwn(STEP_WORDS, name));
        if (unknown !== undefined) {
            throw new RangeError(`no step has the name ${JSON.stringify(unknown)}`);
        }
        const goes = chosen.delete(MARK_STEP);
        const { bytes, steps } = this.#byTheLibrary([...chosen].join(), tellsOthers);
        if (!this.hasMark) {
            return { bytes, steps };
        }
        return { bytes: goes ? bytes : withMark(bytes), steps: goes || tellsOthers ? [markStep(goes), ...steps] : steps };
    }

    #byTheLibrary(names, tellsOthers) {
        const report = withoutMark(this.bytes);
        const prepared = this.erd.prepared(report, names, { tellsOthers });
        if (prepared === null) {
            throw new NotJson(0, 'notJson');
        }
        const steps = readTree(prepared.told).map(doneOf);
        const isChanged = steps.some(({ name, done, count }) => name !== NUMBERS && done && count > 0);
        return isChanged ? { bytes: prepared.bytes, steps } : { bytes: report, steps: steps.filter(({ name }) => name !== NUMBERS) };
    }
}

/**
 * Does the same steps on copies of two reports, and compares the copies. If a copy is refused, the comparison has its faults.
 * @param {Uint8Array} left
 * @param {Uint8Array} right
 * @param {Iterable<string>} names
 * @param {import('../calls.mjs').Erd} erd what `load` has made
 * @throws {NotJson} if the bytes of one are not JSON behind a byte order mark
 */
export function comparePrepared(left, right, names, erd, options) {
    const chosen = [...names];
    const [leftCopy, rightCopy] = [left, right].map((report) => new Preparation(report, erd).prepare(chosen));
    return { compared: erd.compare(leftCopy.bytes, rightCopy.bytes, options), left: leftCopy, right: rightCopy };
}

function markStep(done) {
    return { name: MARK_STEP, done, made: [{ place: [], before: '\ufeff', after: undefined }], left: [], count: 1, leftCount: 0, more: false };
}

function withMark(bytes) {
    const marked = new Uint8Array(bytes.length + 3);
    marked.set([0xef, 0xbb, 0xbf]);
    marked.set(bytes, 3);
    return marked;
}

// What is told of a step. A value that is not there is undefined.
function doneOf(step) {
    return {
        name: step.get('step'), done: step.get('done'), made: step.get('changes').map(changeOf),
        left: step.get('left').map((left) => ({ place: placeOf(left.get('place')), why: left.get('why') })),
        count: numberOf(step.get('count')), leftCount: numberOf(step.get('left_count')), more: step.get('more'),
    };
}

function changeOf(change) {
    const values = { before: change.get('before'), after: change.get('after') };
    return change.has('place') ? { place: placeOf(change.get('place')), ...values }
        : { line: numberOf(change.get('line')), column: numberOf(change.get('column')), ...values };
}

function placeOf(steps) {
    return steps.map((step) => (typeof step === 'string' ? step : numberOf(step)));
}

function numberOf(written) {
    return Number(written.text);
}

/** What a step did, as plain data: each place as a JSON Pointer, with the compact text of the value before and after. */
export function told({ name, done, count, made, leftCount, left, more }) {
    return {
        step: name, done, count, changes: made.map(toldOf), left_count: leftCount,
        left: left.map(({ place, why }) => ({ pointer: pointerOf(place), why })), more,
    };
}

// A number that is written in another way has a line and a column, and the texts of it.
function toldOf(change) {
    return change.place === undefined ? change
        : { pointer: pointerOf(change.place), before: textOrNull(change.before), after: textOrNull(change.after) };
}

function textOrNull(value) {
    return value === undefined ? null : compactText(value);
}
