// As much of a document as web/scripts/dom.mjs needs, for tests of the page in Node: elements with attributes, children and a text. An element or
// an attribute that no browser knows is refused, and so is a role, and a class that no style sheet of the page has.
import { readFileSync } from 'node:fs';

const words = (text) => new Set(text.split(' '));
const TAGS = words('bdi body button caption code dd del details div dl dt em fieldset h2 h3 h4 input ins label legend li mark ol option p pre progress q '
    + 'section select span strong summary table tbody td th thead tr ul wbr a');
const ATTRIBUTES = words('class id type href download lang dir for value checked disabled open hidden tabindex role scope colspan start max title autocomplete '
    + 'aria-label aria-labelledby aria-hidden aria-pressed aria-sort aria-busy aria-describedby data-part data-filed data-sum data-lang data-row data-key '
    + 'data-reason data-shown data-step data-preview data-depth data-text');
const VALUES = {
    role: words('group alert table row rowgroup rowheader columnheader cell presentation status'), scope: words('col row rowgroup'), dir: words('auto'),
    type: words('button checkbox search'), 'aria-hidden': words('true'), 'aria-sort': words('none ascending descending'), 'aria-pressed': words('true false'),
};
// What only scripts look for, and what is said of a thing by its class.
const UNSTYLED = words('envelope no-ballot left-out shown-count others trouble offer own-offer own-view codes reworded pointer names kinds save faults '
    + 'converted copied copy prepared-copy folded unprinted value signed finding on-ballots rest none sheet-file sheet-same goes-on column '
    + 'begins ends continued filled-in visible view numbers prepare-progress precincts');
const sheets = ['style', 'results', 'print'].map((name) => readFileSync(new URL(`../../web/${name}.css`, import.meta.url), 'utf8')).join('');
const CLASSES = new Set([...sheets.matchAll(/\.([a-z][\w-]*)/g)].map(([, name]) => name));

function refuse(what) {
    throw new TypeError(`no browser knows ${what}`);
}

class Element {
    constructor(tag) {
        if (tag !== null && !TAGS.has(tag)) {
            refuse(`the element ${tag}`);
        }
        Object.assign(this, { tag, attributes: {}, children: [], listeners: {}, dataset: {}, style: { setProperty() {} } });
    }

    // Of selectors a tag or a class alone, and a box that is ticked.
    querySelectorAll(selector) {
        const isFound = ({ tag, attributes }) => selector === '*' || tag === selector || selector === `${tag}:checked` && 'checked' in attributes
            || selector.startsWith('.') && (attributes.class ?? '').split(' ').includes(selector.slice(1));
        return this.children.filter((child) => child instanceof Element)
            .flatMap((child) => [...(isFound(child) ? [child] : []), ...child.querySelectorAll(selector)]);
    }

    querySelector(selector) {
        return this.querySelectorAll(selector)[0] ?? null;
    }

    get childNodes() {
        return this.children;
    }

    get firstChild() {
        return this.children[0] ?? null;
    }

    get parentElement() {
        return this.parent ?? null;
    }

    get classList() {
        const names = () => (this.attributes.class ?? '').split(' ').filter((name) => name !== '');
        const toggle = (name, is) => this.setAttribute('class', [...names().filter((one) => one !== name), ...(is ? [name] : [])].join(' '));
        return { toggle, add: (name) => toggle(name, true), remove: (name) => toggle(name, false) };
    }

    // Nothing has a size here.
    getBoundingClientRect() {
        return { top: 0, bottom: 0, height: 0 };
    }

    replaceWith(...others) {
        this.parent.children = this.parent.children.flatMap((child) => (child === this ? others : [child]));
        others.forEach((child) => Object.assign(child, { parent: this.parent }));
    }

    cloneNode() {
        return this;
    }

    focus() {
        globalThis.document.activeElement = this;
    }

    scrollIntoView() {}

    contains(other) {
        return other === this || (other?.parent !== undefined && this.contains(other.parent));
    }

    removeAttribute(name) {
        delete this.attributes[name];
        delete this[name];
    }

    remove() {
        Object.assign(this.parent ?? {}, { children: this.parent?.children.filter((child) => child !== this) });
    }

    get lastElementChild() {
        return this.children.filter((child) => typeof child !== 'string').at(-1);
    }

    setAttribute(name, value) {
        const text = String(value);
        if (!ATTRIBUTES.has(name) || VALUES[name]?.has(text) === false) {
            refuse(`the attribute ${name} ${text}`);
        }
        const isClass = (one) => CLASSES.has(one) || UNSTYLED.has(one) || /^line-[A-Za-z]+$/.test(one);
        if (name === 'class' && !text.split(' ').every((one) => one === '' || isClass(one))) {
            refuse(`the class ${text}`);
        }
        if (name === 'id') {
            IDS.add(text);
        }
        if (name.startsWith('data-')) {
            this.dataset[name.slice('data-'.length)] = text;
        }
        this.attributes[name] = text;
    }

    addEventListener(name, call) {
        this.listeners[name] = call;
    }

    append(...children) {
        this.children.push(...children.flatMap((child) => (child.tag === null ? child.children : [child])));
        this.children.filter((child) => child instanceof Element).forEach((child) => Object.assign(child, { parent: this }));
    }

    replaceChildren(...children) {
        this.children = [];
        this.append(...children);
    }

    // A box to tick reads as one.
    get textContent() {
        if (this.tag === 'input') {
            return Object.hasOwn(this.attributes, 'checked') ? '☑' : '☐';
        }
        return this.children.map((child) => (typeof child === 'string' ? child : child.textContent)).join('');
    }

    set textContent(text) {
        this.children = [text];
    }
}

const named = new Map();
const IDS = new Set([...readFileSync(new URL('../../web/page.html', import.meta.url), 'utf8').matchAll(/ id="([^"]+)"/g)].map(([, id]) => id));

/** The element of an id of the page, which is there as soon as it is asked for, or of one that was made since. */
export function byId(id) {
    if (!IDS.has(id)) {
        refuse(`the id ${id}`);
    }
    named.set(id, named.get(id) ?? new Element('div'));
    return named.get(id);
}

globalThis.document = { createElement: (tag) => new Element(tag), createDocumentFragment: () => new Element(null),
    getElementById: (id) => (id === null ? null : byId(id)) };

/** All elements below this one that have the tag, in their order. */
export function below(element, tag) {
    return element.children.filter((child) => typeof child !== 'string')
        .flatMap((child) => [...(child.tag === tag ? [child] : []), ...below(child, tag)]);
}
