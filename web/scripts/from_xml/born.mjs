// Reads JSON that a usual converter made from XML, as if it were the XML: attributes have names that begin with `@`, or stand in
// `@attributes`; the text of an element that has more is `#text`; one element is no list; and numbers are texts.
import { readTree, WrittenNumber } from '../../../bindings/js/lib/tree.mjs';
import { repeatedNames } from '../../../bindings/js/lib/repeated.mjs';
import { bare, Converter, MOST_NOT_UNDERSTOOD, NIL, ROOT, TYPE } from './converting.mjs';
import { NotXml } from './frame.mjs';
import { VERSIONS } from './versions.mjs';

const ATTRIBUTES = '@attributes';
const TEXT = '#text';
const MARKED = ['@xmlns', '@xsi:'];
const SPACE = 'xmlns';
const PASSED_OVER = new Set([SPACE, 'xsi:schemaLocation', 'xsi:noNamespaceSchemaLocation']);
const NUMBERS = new Set(['whole', 'number']);

/**
 * The converter that has taken a report, or null if it was not made from XML.
 * @param {Uint8Array} bytes of JSON without a byte order mark
 * @throws {NotXml} if no usual converter makes such JSON of XML
 */
export function readBorn(bytes) {
    const root = rootOf(readTree(bytes));
    if (root === null) {
        return null;
    }
    const { converter } = new Walk(root);
    for (const { pointer } of repeatedNames(bytes, { most: MOST_NOT_UNDERSTOOD })) {
        converter.tell('repeated', '', pointer);
    }
    return converter;
}

// The root of what was made from XML, or null if it was not.
function rootOf(tree) {
    if (!(tree instanceof Map) || tree.has('@type')) {
        return null;
    }
    const names = [...tree.keys()].filter((name) => !name.startsWith('?'));
    if (names.length === 1 && localOf(names[0]) === ROOT && tree.get(names[0]) instanceof Map) {
        return tree.get(names[0]);
    }
    const isMarked = tree.get(ATTRIBUTES) instanceof Map || [...tree.keys()].some((name) => MARKED.some((mark) => name.startsWith(mark)));
    return isMarked ? tree : null;
}

// A name without its prefix.
function localOf(name) {
    return name.slice(name.lastIndexOf(':') + 1);
}

// The attributes of an element, by their names in XML.
function attributesOf(members) {
    const inner = members.has(ATTRIBUTES) ? members.get(ATTRIBUTES) : new Map();
    return [...[...members].filter(([name]) => name.startsWith('@') && name !== ATTRIBUTES).map(([name, value]) => [name.slice(1), value]),
        ...(inner instanceof Map ? inner : [[ATTRIBUTES, inner]]),
        ...[TYPE, NIL].filter((name) => members.has(name)).map((name) => [name, members.get(name)])];
}

// A value as XML writes it.
function textOf(value) {
    if (value instanceof WrittenNumber) {
        return value.text;
    }
    if (typeof value === 'string' || typeof value === 'boolean') {
        return String(value);
    }
    throw new NotXml('noSuchJson');
}

/** A walk through the elements, in their order. */
class Walk {
    constructor(root) {
        const spaces = attributesOf(root).filter(([name, value]) => name.startsWith(SPACE) && typeof value === 'string');
        const version = spaces.map(([, value]) => VERSIONS.get(value)).find((one) => one !== undefined);
        this.foreign = new Set(spaces.filter(([name, value]) => name.startsWith(`${SPACE}:`) && !VERSIONS.has(value))
            .map(([name]) => name.slice(SPACE.length + 1)));
        this.converter = new Converter(version ?? 2);
        this.open = [];
        this.begin(ROOT, root);
        if (version === undefined) {
            this.converter.tell('noNamespace');
        }
        this.run();
    }

    run() {
        while (this.open.length > 0) {
            const { value: entry, done } = this.open.at(-1).next();
            if (done) {
                this.open.pop();
                this.converter.end();
            } else {
                this.begin(...entry);
            }
        }
    }

    begin(name, value) {
        const isElement = value instanceof Map;
        const attributes = isElement ? attributesOf(value) : value === null ? [[NIL, 'true']] : [];
        const said = attributes.filter(([inner]) => !PASSED_OVER.has(inner) && !inner.startsWith(`${SPACE}:`)).map(([inner, one]) => [inner, textOf(one)]);
        this.converter.start(this.own(name), said.map(([inner, text]) => [inner, inner === TYPE ? this.own(bare(text)) : text]));
        const text = isElement ? value.get(TEXT) ?? null : value;
        if (text !== null) {
            this.takeText(text);
        }
        this.open.push(isElement ? this.elementsOf(value) : [].values());
    }

    // A name without its prefix, if that does not stand for another namespace.
    own(name) {
        return this.foreign.has(name.slice(0, Math.max(name.lastIndexOf(':'), 0))) ? name : localOf(name);
    }

    // The elements in an element. One that is no list stands alone.
    *elementsOf(members) {
        for (const [name, value] of members) {
            if (name.startsWith('@') || name === TEXT || name === TYPE || name === NIL) {
                continue;
            }
            if (Array.isArray(value) && value.length === 0) {
                this.converter.tell('emptyList', name);
            }
            for (const entry of Array.isArray(value) ? value : [value]) {
                yield [name, entry];
            }
        }
    }

    takeText(text) {
        if (text instanceof WrittenNumber && !NUMBERS.has(this.converter.open.shape.word)) {
            this.converter.tell('numberForText');
        }
        this.converter.words(textOf(text));
    }
}
