// Finds places of a report in its bytes, all of them in one walk.
import { Scanner, Visitor, textOf } from '../../bindings/js/lib/scanner.mjs';

// The members that say what an object is to a reader.
const TITLE_MEMBERS = new Set(['Name', 'BallotName', 'FullName', 'LastName', 'Selection', 'Type', 'Value', 'Language', '@type']);

/** What is known of one value: where it stands, and where what says its name stands. */
class Node {
    start = -1;
    end = -1;
    nameStart = -1;
    below = new Map();
    titles = new Map();

    child(step) {
        if (!this.below.has(step)) {
            this.below.set(step, new Node());
        }
        return this.below.get(step);
    }

    // A name that is written twice: the last value counts.
    forget() {
        this.start = -1;
        this.titles.clear();
        this.below.forEach((node) => node.forget());
    }
}

/** A member that says its object's name. It has no place of its own. */
class Title {
    constructor(node, name) {
        this.node = node;
        this.name = name;
    }
}

class Finder extends Visitor {
    member(node, name, nameStart) {
        const inner = node instanceof Node ? node.below.get(name) : undefined;
        if (inner !== undefined) {
            inner.forget();
            inner.nameStart = nameStart;
            return inner;
        }
        return node instanceof Node && TITLE_MEMBERS.has(name) ? new Title(node, name) : null;
    }

    entry(node, position) {
        return node instanceof Node ? node.below.get(position) ?? null : null;
    }

    value(found, start, end) {
        if (found instanceof Title) {
            found.node.titles.set(found.name, [start, end]);
        } else {
            found.start = start;
            found.end = end;
        }
    }
}

/** One place that was found: a way of nodes from the root to the value. */
export class Found {
    constructor(bytes, place, way) {
        this.bytes = bytes;
        this.place = place;
        this.way = way;
    }

    /** The value. */
    get value() {
        const { start, end } = this.way.at(-1);
        return JSON.parse(textOf(this.bytes, start, end));
    }

    /** Where the value stands, and the name before it if it is a member. */
    get range() {
        const node = this.way.at(-1);
        return { start: node.nameStart < 0 ? node.start : node.nameStart, end: node.end };
    }

    /** The value of a title member of the object that is reached after so many steps; undefined if it has none. */
    title(steps, name) {
        const node = this.way[steps];
        const inner = node.below.get(name);
        const range = inner === undefined ? node.titles.get(name) : [inner.start, inner.end];
        if (range === undefined || range[0] < 0 || range[1] - range[0] > LONGEST_TITLE) {
            return undefined;
        }
        return JSON.parse(textOf(this.bytes, ...range));
    }
}

const LONGEST_TITLE = 1 << 20;

/**
 * Finds places in bytes that are JSON.
 * @param {Uint8Array} bytes
 * @param {(string | number)[][]} places
 * @returns {(Found | null)[]} null where the report has no such place
 */
export function foundPlaces(bytes, places) {
    return partsOf(bytes, places).map((found) => (found.way.at(-1).start < 0 ? null : found));
}

/**
 * Finds places in bytes that are JSON, as far as they are there: of a place that the report has not, the objects on the way to it have titles.
 * @param {Uint8Array} bytes
 * @param {(string | number)[][]} places
 * @returns {Found[]}
 */
export function partsOf(bytes, places) {
    const root = new Node();
    const ways = places.map((place) => wayOf(root, place));
    new Scanner(bytes, new Finder()).whole(root);
    return ways.map((way, index) => new Found(bytes, places[index], way));
}

function wayOf(root, place) {
    const way = [root];
    for (const step of place) {
        way.push(way.at(-1).child(step));
    }
    return way;
}
