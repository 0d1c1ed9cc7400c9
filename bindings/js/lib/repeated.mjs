// The names that are written more than once in one object. JSON says nothing of such an object: erd reads the last value.
import { bytesOf } from './calls.mjs';
import { NotJson, Scanner, Visitor } from './scanner.mjs';
import { pointerOf } from './words.mjs';

/** How many repeated names are listed if the caller names no other number. */
export const MOST_NAMES = 1000;

// No further name is listed once the places of those before it have so many characters.
const ENOUGH_TEXT = 2 ** 20;

// An object or an array, and how it is reached. `names` counts those of an object until it ends.
class Level {
    constructor(parent, step) {
        this.parent = parent;
        this.step = step;
        this.names = null;
    }

    place() {
        const steps = [];
        for (let level = this; level.parent !== null; level = level.parent) {
            steps.push(level.step);
        }
        return steps.reverse();
    }

    length() {
        let length = 0;
        for (let level = this; level.parent !== null; level = level.parent) {
            length += String(level.step).length + 1;
        }
        return length;
    }
}

class Repeats extends Visitor {
    constructor(most) {
        super();
        this.most = most;
        this.found = [];
        this.all = 0;
        this.length = 0;
    }

    member(level, name) {
        level.names ??= new Map();
        level.names.set(name, (level.names.get(name) ?? 0) + 1);
        return new Level(level, name);
    }

    entry(level, position) {
        return new Level(level, position);
    }

    value(level) {
        for (const [name, times] of level.names ?? []) {
            if (times > 1) {
                this.keep(level, name, times);
            }
        }
        level.names = null;
    }

    keep(level, name, times) {
        this.all++;
        if (this.most === null || (this.found.length < this.most && this.length < ENOUGH_TEXT)) {
            this.found.push(repeatedName(level, name, times));
            this.length += level.length() + name.length + 1;
        }
    }
}

// A place is made when it is shown: together, those of a report can be as long as its square.
function repeatedName(level, name, times) {
    return {
        get place() {
            return [...level.place(), name];
        },
        get pointer() {
            return pointerOf(this.place);
        },
        times,
    };
}

/**
 * The names that are written more than once in one object, in the order in which their objects end. `allNames` of the list is how many
 * there are, and `more` whether some are not listed.
 * @param {Uint8Array | ArrayBuffer | string} report
 * @param {{ most?: number | null }} [options] `most`: how many are listed, and fewer if their places together have more than a
 * megabyte; null for all
 * @throws {SyntaxError} if the report is not JSON
 */
export function repeatedNames(report, { most = MOST_NAMES } = {}) {
    const bytes = bytesOf(report, 'the report');
    const repeats = new Repeats(most);
    try {
        new TextDecoder('utf-8', { fatal: true, ignoreBOM: true }).decode(bytes);
        new Scanner(bytes, repeats).whole(new Level(null, ''));
    } catch (error) {
        throw error instanceof NotJson || error instanceof TypeError ? new SyntaxError('not JSON') : error;
    }
    return Object.defineProperties(repeats.found, {
        allNames: { value: repeats.all },
        more: { value: repeats.found.length < repeats.all },
    });
}
