// What is made when a reader asks for it.
import { attempted } from './attempts.mjs';
import { element } from './dom.mjs';

// How long a reader who has stopped typing waits, in milliseconds.
const STOPPED = 200;

/**
 * A part that is folded. What it has is made when it is opened.
 * @param {Record<string, string>} attributes
 * @param {Node | string | (Node | string | null)[]} summary
 * @param {() => Promise<Node[]>} make
 */
export function folded(attributes, summary, make) {
    const holder = element('div', {});
    const details = element('details', attributes, element('summary', {}, ...[summary].flat()), holder);
    details.addEventListener('toggle', () => attempted(holder, async () => holder.append(...(await make()).filter((node) => node !== null))), { once: true });
    return details;
}

/** A field for words by which a list is narrowed. If that fails, the holder of the list says so. */
export function filterField(id, label, holder, narrow) {
    const field = element('input', { type: 'search', id, autocomplete: 'off' });
    let waiting;
    field.addEventListener('input', () => {
        clearTimeout(waiting);
        waiting = setTimeout(() => attempted(holder, () => narrow(field.value)), STOPPED);
    });
    return element('p', {}, element('label', { for: id }, label), ' ', field);
}
