// Prepares a copy of a refused file, in the worker.
import { boundedPointer, boundedText } from './bounded.mjs';
import { NUMBERS, Preparation, STEPS, stepsOf } from '../../bindings/js/lib/prepare/prepared.mjs';
import { withMark } from './copy_mark.mjs';
import { sha256 } from './digest.mjs';
import { partsOf } from './places.mjs';
import { NotJson } from '../../bindings/js/lib/scanner.mjs';
import { withoutMark } from '../../bindings/js/lib/tree.mjs';
import { trailOf } from './trail.mjs';

/** How many changes of a step are shown, and how many characters of a value. */
const MOST_SHOWN = 5;
const LONGEST_VALUE = 200;

/** How many characters of a list of changes are saved, and of each of its values. */
const MOST_SAVED = 20_000_000;
const LONGEST_SAVED = 2000;
const LONGEST_PIECE = 1_000_000;

/** The preparation of one file. */
export class Preparing {
    /**
     * @param {Uint8Array} bytes
     * @param {import('../../bindings/js/lib/calls.mjs').Erd} erd
     */
    constructor(bytes, erd) {
        this.bytes = bytes;
        this.preparation = new Preparation(bytes, erd);
    }

    // The worker may have begun anew since these steps were done.
    #do(names, tell) {
        if (this.names !== names.join()) {
            this.told(names, tell);
        }
    }

    /**
     * Does these steps, or the usual ones, and tells what each does and what the others would do; null if the bytes are not JSON behind a
     * byte order mark. `tell` is told that it begins.
     */
    told(names, tell = () => {}) {
        tell({ stage: 'preparing', done: 0, total: 0 });
        const prepared = preparedBy(this.preparation, names ?? stepsOf('removed', 'filled-in'));
        if (prepared === null) {
            return null;
        }
        const { bytes, steps } = prepared;
        this.copy = bytes;
        this.done = steps.filter(({ done, count }) => done && count > 0);
        this.names = names?.join();
        return toldOf(steps, withoutMark(this.bytes));
    }

    /**
     * The copy of a file of this name on which these steps were done, with the mark that says so, and the sum of the file. `converted` is
     * what is known of a file that was converted from XML, whose form is prepared.
     */
    async copied(names, { name, converted }, tell) {
        this.#do(names, tell);
        const original = converted === null ? await sha256(this.bytes) : converted.sha256;
        const origin = { name, original, converted, steps: this.done.map(({ name, count }) => ({ name, count })) };
        return { ...origin, bytes: withMark(this.copy, origin) };
    }

    /** Each change of these steps, as JSON in pieces of bytes. Texts are cut that are longer than a reader needs, and so is a list that is. */
    changes(names, tell) {
        this.#do(names, tell);
        const written = new Written();
        this.done.forEach((step, at) => {
            written.add(at === 0 ? '[' : ',\n');
            writeChanges(step, written);
        });
        written.add(this.done.length === 0 ? '[]\n' : ']\n');
        return written.pieces();
    }
}

// What the steps make of a file; null if it is not JSON.
function preparedBy(preparation, names) {
    try {
        return preparation.prepare(names, { tellsOthers: true });
    } catch (error) {
        if (error instanceof NotJson) {
            return null;
        }
        throw error;
    }
}

// The changes of a step that it tells. Those that have no more room, or that it does not tell, are counted.
function writeChanges({ name, made, count }, written) {
    written.add(`{"step":${JSON.stringify(name)},"count":${count},"changes":[\n`);
    let listed = 0;
    for (; listed < made.length && written.length < MOST_SAVED; listed++) {
        written.add((listed === 0 ? '' : ',\n') + JSON.stringify(savedChange(made[listed])));
    }
    written.add(listed < count ? `],"more":${count - listed}}` : ']}');
}

function savedChange(change) {
    return change.place === undefined ? change
        : { pointer: boundedPointer(change.place), before: savedText(change.before), after: savedText(change.after) };
}

// A text that is written from its beginning to its end, and kept as bytes: a long one would be in memory several times while it is made.
class Written {
    constructor() {
        this.length = 0;
        this.texts = [];
        this.waiting = 0;
        this.done = [];
    }

    add(text) {
        this.length += text.length;
        this.waiting += text.length;
        this.texts.push(text);
        if (this.waiting >= LONGEST_PIECE) {
            this.pieces();
        }
    }

    pieces() {
        this.done.push(new TextEncoder().encode(this.texts.join('')));
        this.texts = [];
        this.waiting = 0;
        return this.done;
    }
}

function savedText(value) {
    return value === undefined ? null : boundedText(value, LONGEST_SAVED);
}

// What is shown of the steps. Places are those of the file, and so is what its objects are called.
function toldOf(steps, bytes) {
    const shown = steps.map(({ made, left }) => ({ made: made.slice(0, MOST_SHOWN), left: left.slice(0, MOST_SHOWN) }));
    const places = shown.flatMap(({ made, left }) => [...made, ...left]).filter(({ place }) => place !== undefined).map(({ place }) => place);
    const trails = new Map(partsOf(bytes, places).map((found) => [found.place, trailOf(found, found.place)]));
    return steps.map((step, at) => ({
        name: step.name, group: groupOf(step), done: step.done, count: step.count, leftCount: step.leftCount,
        made: shown[at].made.map((change) => changeShown(change, trails)),
        left: shown[at].left.map(({ place, why }) => ({ pointer: boundedPointer(place), trail: trails.get(place), why })),
    }));
}

// Numbers that are written in another way are no step, and so of no group.
function groupOf({ name }) {
    return name === NUMBERS ? null : STEPS.find((step) => step.name === name).group;
}

function changeShown(change, trails) {
    const { place, before, after } = change;
    return place === undefined ? change
        : { pointer: boundedPointer(place), trail: trails.get(place), before: valueText(before), after: valueText(after) };
}

// The text of a value; null if it is not there.
function valueText(value) {
    return value === undefined ? null : boundedText(value, LONGEST_VALUE);
}
