// An element that is open, and the values that it has so far. A value is its JSON text.
import { Shape } from './table.mjs';

/** The most bytes of a report. */
export const MOST_BYTES = 67108864;
const MOST_OF_NAME = 80;
const NOTHING = new Map();

/** What the table does not list. */
export const UNKNOWN = new Shape('unknown');
/** An element of version 1 that holds others. */
export const COLLECTION = new Shape('collection');

/** The bytes are no XML that is converted. `why` is the key of a text. */
export class NotXml extends Error {
    constructor(why, values = {}) {
        super(why);
        this.why = why;
        this.values = values;
    }
}

/** The values of a member: those of a list, one, or several where one should stand. */
class Values {
    constructor(kind, texts) {
        this.kind = kind;
        this.texts = texts;
    }

    get text() {
        return this.kind === 'one' ? this.texts[0] : `[${this.texts.join(',')}]`;
    }
}

export class Frame {
    constructor(name, number, holder, member, shape) {
        this.name = name;
        this.number = number;
        this.holder = holder;
        this.member = member;
        this.shape = shape;
        this.type = null;
        this.shapes = NOTHING;
        this.old = NOTHING;
        // These two are made when they are needed: most elements have a text alone.
        this.members = NOTHING;
        this.counts = NOTHING;
        this.text = '';
        this.levels = 0;
        this.length = 0;
        this.isNil = false;
        this.isCarried = false;
    }

    /** This element as a step of a place. */
    get step() {
        return this.shape.isList || this.number > 1 ? `/${shortened(this.name, '..')}[${this.number}]` : `/${shortened(this.name, '..')}`;
    }

    /** How many elements of this name have begun in this one, with the one that begins now. */
    countOf(name) {
        const count = (this.counts.get(name) ?? 0) + 1;
        this.counts = this.counts === NOTHING ? new Map() : this.counts;
        this.counts.set(name, count);
        return count;
    }

    /** Adds a value to a member: its JSON text, or those of several references. Tells whether it should stand alone and does not. */
    add(member, shape, value) {
        const before = this.members.get(member);
        const values = shape.isList ? listOf(before) : severalOf(before);
        for (const text of typeof value === 'string' ? [value] : value) {
            this.takeLength(member.length + text.length);
            values.texts.push(text);
        }
        this.members = this.members === NOTHING ? new Map() : this.members;
        this.members.set(member, values);
        return before !== undefined && shape !== UNKNOWN && (!shape.isList || shape.word === 'references');
    }

    // Together the values of an element may have no more than a report.
    takeLength(length) {
        this.length += length;
        if (this.length > MOST_BYTES) {
            throw new NotXml('tooLong');
        }
    }

    /** The members as an object, with the class before them, and with a text where there is one. */
    object(text) {
        const members = new Map(this.type === null ? [] : [['@type', JSON.stringify(`ElectionResults.${this.type}`)]]);
        this.members.forEach((values, name) => members.set(name, values.text));
        if (text !== null) {
            members.set('#text', JSON.stringify(text));
        }
        return `{${[...members].map(([name, value]) => `${JSON.stringify(name)}:${value}`).join(',')}}`;
    }
}

// The values of a list, with what stands there already.
function listOf(values) {
    return values === undefined ? new Values('list', []) : values.kind === 'one' ? new Values('list', values.texts) : values;
}

// The values of a member that has one, or several once it has another one.
function severalOf(values) {
    if (values === undefined) {
        return new Values('one', []);
    }
    return values.kind === 'several' ? values : new Values('several', [values.text]);
}

/** A name, or its beginning if it is long. */
export function shortened(name, end = '') {
    const letters = name.length <= MOST_OF_NAME ? [] : [...name.slice(0, 2 * MOST_OF_NAME + 1)];
    return letters.length <= MOST_OF_NAME ? name : letters.slice(0, MOST_OF_NAME).join('') + end;
}
