// Makes elements. A text from a file is only ever text: no call here takes markup.
import { say } from './texts.mjs';
import { piecesOf, shortened } from './visible.mjs';

/** The most characters that a text may have to be shown whole in the page. */
const MOST_SHOWN = 100_000;

/**
 * An element.
 * @param {string} tag
 * @param {Record<string, string | boolean | ((event: Event) => void)>} attributes a function is called on the event of its name
 * @param {...(Node | string | null)} children null is left out
 */
export function element(tag, attributes, ...children) {
    const made = document.createElement(tag);
    for (const [name, value] of Object.entries(attributes)) {
        if (typeof value === 'function') {
            made.addEventListener(name, value);
        } else if (value !== false) {
            made.setAttribute(name, value === true ? '' : value);
        }
    }
    made.append(...children.filter((child) => child !== null));
    return made;
}

/** What something is called, and the thing, as an entry of a list of such (`dl`). */
export function described(key, thing) {
    return element('div', {}, element('dt', {}, say(key)), element('dd', {}, thing));
}

/** A button with this text. */
export function button(text, onClick, attributes = {}) {
    return element('button', { type: 'button', click: onClick, ...attributes }, text);
}

/** A table that is scrolled where it is too wide: what it has, its class, its heads, and its bodies. */
export function wideTable(caption, name, heads, ...bodies) {
    return element('div', { class: 'scrolled', tabindex: '0', role: 'group', 'aria-label': caption },
        element('table', { class: name }, element('caption', { class: 'visually-hidden' }, caption),
            element('thead', {}, element('tr', {}, ...heads.map((head) => element('th', { scope: 'col' }, head)))), ...bodies));
}

/** A text of the table, in which a value may be a node. */
export function saidWith(key, nodes, values = {}) {
    const parts = say(key, { ...values, ...Object.fromEntries(Object.keys(nodes).map((name) => [name, `\0${name}\0`])) }).split('\0');
    const fragment = document.createDocumentFragment();
    fragment.append(...parts.map((part, index) => (index % 2 === 1 ? nodes[part] : part)));
    return fragment;
}

/** A text from a file, set apart from the direction of what stands around it, with marks for what would not be visible. */
export function theirs(text, kept = '') {
    return element('bdi', { class: 'theirs' }, ...marked(text, kept));
}

/** A text from a file. If it is long, its beginning, with a button for the whole. */
export function long(text, most, kept = '') {
    return text.length <= most ? theirs(text, kept) : withWhole(text, [theirs(shortened(text, most), kept)], kept);
}

/** What is shown of a text from a file, with a button for the whole. */
export function withWhole(text, shown, kept = '') {
    const holder = element('span', {}, ...shown, ' ');
    const whole = text.length <= MOST_SHOWN
        ? button(say('long.show', { count: text.length }), () => holder.replaceChildren(box(text, kept)), { class: 'small' })
        : button(say('long.save', { count: text.length }), () => save(new Blob([text]), 'text.txt'), { class: 'small' });
    holder.append(whole);
    return holder;
}

/** A long text in a box of its own, which can be scrolled by keyboard too. */
export function box(text, kept) {
    const made = element('span', { class: 'box', tabindex: '0', role: 'group', 'aria-label': say('long.whole') }, theirs(text, kept));
    queueMicrotask(() => made.focus());
    return made;
}

function marked(text, kept) {
    return piecesOf(text, kept).map((piece) => ('text' in piece ? piece.text
        : element('span', { class: 'hidden-character', title: say('hiddenCharacter', { code: piece.mark }) }, piece.mark)));
}

/** Saves a file, as a download from the page itself. */
export function save(blob, name) {
    const address = URL.createObjectURL(blob);
    const link = element('a', { href: address, download: name });
    link.click();
    setTimeout(() => URL.revokeObjectURL(address), 60_000);
}
