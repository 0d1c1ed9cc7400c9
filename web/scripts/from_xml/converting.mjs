// Makes the JSON form of a report from what a reader of XML meets: the beginnings of elements, texts, and ends of elements.
//
// The table says what each member is. What it doesn't list is carried as far as it can be, and told with its place. Nothing here calls
// itself: an element that is open is a frame on a list.
import { COLLECTION, Frame, NotXml, shortened, UNKNOWN } from './frame.mjs';
import { attributesOf, classByDefault, COLLECTIONS, oldNamesOf, Shape, shapesOf, TEXT_MEMBER } from './table.mjs';

export const ROOT = 'ElectionReport';
export const TYPE = 'xsi:type';
export const NIL = 'xsi:nil';

const MOST_LEVELS = 127;
const MOST_TOLD = 1000;
/** A file of which more is not understood is of another kind. */
export const MOST_NOT_UNDERSTOOD = 20000;
// No further place is told once those before it have so many characters.
const ENOUGH_TEXT = 2 ** 20;
const FLAGS = new Map([['true', true], ['1', true], ['false', false], ['0', false]]);
const WHOLE = /^[+-]?[0-9]{1,30}$/;
const NUMBER = /^-?(?:0|[1-9][0-9]{0,300})(?:\.[0-9]+)?(?:[eE][+-]?[0-9]{1,2})?$/;
const IDENTITY = new Shape('text');

/** A text without the blanks of XML around it. */
export function bare(text) {
    return text.replace(/^[ \t\r\n]+/, '').replace(/[^ \t\r\n][ \t\r\n]*$/, (end) => end[0]);
}

function hasWords(text) {
    return /[^ \t\r\n]/.test(text);
}

/**
 * What was not understood: at these elements from the root on, where a number tells which of several with one name; in this line of the
 * XML, or null if it came as JSON; and the key of a text.
 * @typedef {{place: string, line: number | null, key: string, name: string}} Told
 */

/** Takes what a reader meets, in its order. The reader puts what tells the line that it is at into `lineNow`. */
export class Converter {
    constructor(version) {
        this.version = version;
        this.lineNow = () => null;
        /** @type {Told[]} */
        this.told = [];
        this.allTold = 0;
        this.toldText = 0;
        const top = new Frame('', 1, null, '', UNKNOWN);
        top.shapes = new Map([[ROOT, new Shape('object', [ROOT])]]);
        this.frames = [top];
    }

    /** The report as a line of JSON, once the root has ended. */
    get text() {
        return `${this.frames[0].members.get(ROOT).text}\n`;
    }

    get open() {
        return this.frames.at(-1);
    }

    /** Tells what was not understood: at the element that is open, or at a place that is named. */
    tell(key, name = '', place = null) {
        this.allTold++;
        if (this.allTold > MOST_NOT_UNDERSTOOD) {
            throw new NotXml('tooMany', { most: MOST_NOT_UNDERSTOOD });
        }
        if (this.told.length < MOST_TOLD && this.toldText < ENOUGH_TEXT) {
            const told = { place: place ?? this.frames.slice(1).map(({ step }) => step).join(''), line: this.lineNow(), key, name: shortened(name) };
            this.told.push(told);
            this.toldText += told.place.length + told.key.length + told.name.length;
        }
    }

    /**
     * Begins an element. Its name, that of its class and those of attributes are without a namespace if they are of the standard.
     * @param {string} name
     * @param {[string, string][]} attributes
     */
    start(name, attributes) {
        const frame = this.opened(this.open, name);
        this.frames.push(frame);
        this.takeClass(frame, attributes.length === 0 ? attributes : attributes.filter(([attribute]) => attribute === TYPE).map(([, value]) => value));
        if (frame.levels - (!frame.shape.isObject && attributes.length === 0 ? 1 : 0) > MOST_LEVELS) {
            throw new NotXml('tooDeep', { most: MOST_LEVELS });
        }
        for (const [attribute, value] of attributes) {
            if (attribute === NIL && FLAGS.has(bare(value))) {
                frame.isNil = FLAGS.get(bare(value));
            } else if (attribute !== TYPE) {
                this.takeAttribute(frame, attribute, value);
            }
        }
    }

    /** Takes a part of the text of the element that is open. */
    words(text) {
        this.open.text += text;
    }

    /** Ends the element that is open. */
    end() {
        const frame = this.open;
        if (frame.shape === COLLECTION) {
            this.leaveText(frame);
        } else {
            this.add(frame.holder, frame.member, frame.shape, this.valueOf(frame));
        }
        this.frames.pop();
    }

    // The frame of an element that begins inside another one.
    opened(parent, name) {
        const number = parent.countOf(name);
        const holder = parent.shape === COLLECTION ? parent.holder : parent;
        const [member, shape] = this.known(parent, holder, name);
        const frame = new Frame(name, number, holder, member, shape);
        frame.isCarried = shape === UNKNOWN;
        frame.levels = holder.levels + (shape === COLLECTION ? 0 : shape.isList ? 2 : 1);
        if (frame.isCarried && !parent.isCarried) {
            this.frames.push(frame);
            this.tell('element');
            this.frames.pop();
        }
        return frame;
    }

    // The member that an element is, and its shape.
    known(parent, holder, name) {
        if (parent.shape === COLLECTION) {
            return [name, name === COLLECTIONS.get(parent.name) ? holder.shapes.get(name) : UNKNOWN];
        }
        if (holder.shapes.has(name)) {
            return [name, holder.shapes.get(name)];
        }
        if (this.version === 1 && holder.shapes.has(COLLECTIONS.get(name))) {
            return [name, COLLECTION];
        }
        const current = holder.old.get(name);
        return current === undefined ? [name, UNKNOWN] : [current, holder.shapes.get(current)];
    }

    // Finds the class of an element: the one that it names, or that of the schema.
    takeClass(frame, named) {
        let { classes } = frame.shape;
        frame.type = named.length > 0 ? named[0] : classByDefault(frame.name, classes);
        if (classes.includes(frame.type)) {
            classes = [frame.type];
        } else if (named.length > 0 && !this.isTold(frame)) {
            this.tell('class');
        } else if (frame.shape.isObject) {
            this.tell('noClass');
        }
        if (named.length > 1) {
            this.tell('twoClasses');
        }
        frame.shapes = shapesOf(classes);
        if (this.version === 1) {
            frame.old = oldNamesOf(classes);
        }
    }

    // Whether it has been told that the element which is open is carried, as a part of another one.
    isTold(frame) {
        return frame.isCarried && this.frames.at(-2).isCarried;
    }

    takeAttribute(frame, name, value) {
        const member = attributesOf(this.version).get(name) ?? '';
        const text = JSON.stringify(value);
        if (member === '@id' && frame.shape.isObject) {
            this.add(frame, member, IDENTITY, text);
        } else if (frame.shapes.has(member)) {
            this.add(frame, member, frame.shapes.get(member), text);
        } else if (frame.shape === COLLECTION) {
            this.tell('attributeLeftOut', name);
        } else {
            if (!this.isTold(frame)) {
                this.tell('attribute', name);
            }
            this.add(frame, name, UNKNOWN, text);
        }
    }

    add(holder, member, shape, value) {
        if (holder.add(member, shape, value)) {
            this.tell('several', member);
        }
    }

    // The value of an element that ends: its JSON text, or those of several references.
    valueOf(frame) {
        const { shape, members } = frame;
        const words = frame.text;
        if (frame.isNil && members.size === 0 && !hasWords(words)) {
            return 'null';
        }
        if (frame.isNil) {
            this.tell('nil');
        }
        if (shape.isObject || (shape.mayBeText && members.size > 0)) {
            return this.objectOf(frame, words);
        }
        if (members.size > 0 || (shape === UNKNOWN && frame.type !== null)) {
            return frame.object(hasWords(words) ? words : null);
        }
        return this.scalarOf(shape.word, words);
    }

    objectOf(frame, words) {
        const shape = frame.shapes.get(TEXT_MEMBER);
        if (shape === undefined) {
            this.leaveText(frame);
        } else if (hasWords(words) || !frame.members.has(TEXT_MEMBER)) {
            this.add(frame, TEXT_MEMBER, shape, JSON.stringify(words));
        }
        return frame.object(null);
    }

    // Tells of a text among elements.
    leaveText(frame) {
        if (hasWords(frame.text)) {
            this.tell('text');
        }
    }

    // The value of an element that has only text.
    scalarOf(word, words) {
        if (word === 'references') {
            return referencesIn(words).map((one) => JSON.stringify(one));
        }
        if (word === 'reference') {
            if (referencesIn(words).length !== 1) {
                this.tell('reference');
            }
            return JSON.stringify(bare(words));
        }
        const reading = READINGS.get(word);
        const value = reading?.(bare(words));
        if (reading !== undefined && value === undefined) {
            this.tell(word);
        }
        return value ?? JSON.stringify(words);
    }
}

function referencesIn(words) {
    return words.match(/[^ \t\r\n]+/g) ?? [];
}

// The JSON text of a truth value or a number; undefined if the text is none.
const READINGS = new Map([
    ['flag', (text) => FLAGS.get(text)?.toString()],
    ['whole', (text) => (WHOLE.test(text) ? BigInt(text).toString() : undefined)],
    ['number', (text) => (NUMBER.test(text) ? text : undefined)],
]);
