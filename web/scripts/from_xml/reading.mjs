// Reads XML by the reader of the browser, which judges it: in the page's own thread, since no other one has it, and part by part.
import { bare, Converter, NIL, ROOT, TYPE } from './converting.mjs';
import { encodingOf, partsOfText } from './decoding.mjs';
import { NotXml } from './frame.mjs';
import { LineCounter, Parts } from './parts.mjs';
import { VERSIONS } from './versions.mjs';

const INSTANCE = 'http://www.w3.org/2001/XMLSchema-instance';
const NAMESPACES = 'http://www.w3.org/2000/xmlns/';
const INSTANCE_NAMES = new Map([['type', TYPE], ['nil', NIL]]);
// What says where a schema is, and nothing of the report.
const PASSED_OVER = new Set(['schemaLocation', 'noNamespaceSchemaLocation']);
const NO_ATTRIBUTES = [];
const ELEMENT = 1;
const TEXTS = new Set([3, 4]);
// The namespaces of the element by which a browser says that it could not read, and how it says where it stopped.
const OF_ERRORS = new Set(['http://www.w3.org/1999/xhtml', 'http://www.mozilla.org/newlayout/xml/parsererror.xml']);
const PLACE = /\bl(?:ine|[ií]nea)\D{0,12}(\d+)/i;

/**
 * Reads XML, and returns the converter that has taken it.
 * @param {Uint8Array} bytes
 * @param {(done: number) => Promise<void>} turn is waited for after each part of the bytes, of which so many are done
 * @param {{enough?: number, block?: number}} [sizes] how many characters a part has at least, and how many bytes are decoded at a time
 * @throws {NotXml} if it is no XML, or no report
 */
export async function readXml(bytes, turn, { enough, block } = {}) {
    const encoding = encodingOf(bytes);
    if (encoding === null) {
        throw new NotXml('malformed', { line: 1 });
    }
    const parts = new Parts(enough);
    const walk = new Walk();
    let length = 0;
    const next = () => turn(Math.min(length, bytes.length));
    for (const text of partsOfText(bytes, encoding, block)) {
        for (const part of parts.more(text, false)) {
            walk.take(part);
            await next();
        }
        length += text.length * (encoding.encoding === 'utf-8' ? 1 : 2);
        await next();
    }
    for (const part of parts.more('', true)) {
        walk.take(part);
    }
    return walk.converter;
}

/** Hands what stands in the parts of a document to a converter. */
class Walk {
    converter = null;
    namespace = '';

    /** @param {import('./parts.mjs').Part} part */
    take(part) {
        const root = rootOf(part);
        const lines = new LineCounter(part);
        Object.assign(this, { part, started: 0, ended: 0, count: root.getElementsByTagName('*').length + 1, place: 0 });
        this.lineNow = () => lines.of(this.place);
        if (this.converter !== null) {
            this.converter.lineNow = this.lineNow;
        }
        for (let node = root; node !== null; node = this.next(node, root)) {
            this.enter(node);
        }
    }

    enter(node) {
        if (TEXTS.has(node.nodeType)) {
            this.converter.words(node.data);
        } else if (node.nodeType === ELEMENT) {
            // The elements that are open before the part have begun already.
            if (this.started >= this.part.before) {
                this.place = this.part.starts[this.started - this.part.before];
                this.start(node);
            }
            this.started++;
        }
    }

    // The node that follows, after the elements that end before it.
    next(node, root) {
        if (node.firstChild !== null) {
            return node.firstChild;
        }
        for (let left = node; ; left = left.parentNode) {
            this.leave(left);
            if (left === root || left.nextSibling !== null) {
                return left === root ? null : left.nextSibling;
            }
        }
    }

    leave(node) {
        // The elements that are open after the part end later.
        if (node.nodeType === ELEMENT && this.ended < this.count - this.part.after) {
            this.place = this.part.ends[this.ended];
            this.converter.end();
            this.ended++;
        }
    }

    start(element) {
        const isRoot = this.converter === null;
        if (isRoot) {
            this.namespace = element.namespaceURI ?? '';
            if (element.localName !== ROOT || (this.namespace !== '' && !VERSIONS.has(this.namespace))) {
                throw new NotXml('root');
            }
            this.converter = new Converter(VERSIONS.get(this.namespace) ?? 2);
            this.converter.lineNow = this.lineNow;
        }
        this.converter.start(this.nameOf(element), this.attributesOf(element));
        if (isRoot && this.namespace === '') {
            this.converter.tell('noNamespace');
        }
    }

    // The name of an element: without its namespace, if that is the root's.
    nameOf({ namespaceURI, localName }) {
        return (namespaceURI ?? '') === this.namespace ? localName : `{${namespaceURI ?? ''}}${localName}`;
    }

    attributesOf(element) {
        if (!element.hasAttributes()) {
            return NO_ATTRIBUTES;
        }
        const said = [...element.attributes].filter(({ namespaceURI, localName }) => namespaceURI !== NAMESPACES
            && !(namespaceURI === INSTANCE && PASSED_OVER.has(localName)));
        return said.map((attribute) => {
            const name = nameOfAttribute(attribute);
            return [name, name === TYPE ? this.classNamed(element, attribute.value) : attribute.value];
        });
    }

    // A class without its prefix, if that stands for the namespace of the root. One without a prefix is of the standard.
    classNamed(element, value) {
        const name = bare(value);
        const colon = name.lastIndexOf(':');
        const space = colon <= 0 ? null : element.lookupNamespaceURI(name.slice(0, colon));
        return colon <= 0 || (space !== null && space === this.namespace) ? name.slice(colon + 1) : value;
    }
}

function nameOfAttribute({ namespaceURI, localName }) {
    if (namespaceURI === INSTANCE && INSTANCE_NAMES.has(localName)) {
        return INSTANCE_NAMES.get(localName);
    }
    return namespaceURI === null ? localName : `{${namespaceURI}}${localName}`;
}

// The root of a part, as the browser reads it.
function rootOf({ text, line, lead }) {
    const read = new DOMParser().parseFromString(text, 'application/xml');
    const wrong = [...read.getElementsByTagName('parsererror')].find(({ namespaceURI }) => OF_ERRORS.has(namespaceURI));
    if (wrong !== undefined || read.doctype !== null) {
        const found = Number(PLACE.exec(wrong?.textContent ?? '')?.[1] ?? 1);
        throw new NotXml('malformed', { line: Math.max(line, line + found - 1 - lead) });
    }
    return read.documentElement;
}
