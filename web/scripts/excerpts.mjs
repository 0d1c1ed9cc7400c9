// Shows an excerpt of a file: numbers of lines, and the part that is spoken of, marked.
import { box, button, element, save, theirs } from './dom.mjs';
import { textOf } from '../../bindings/js/lib/scanner.mjs';
import { say } from './texts.mjs';

// Line feeds and tabs are part of how a file is laid out.
const KEPT = '\n\t';
const MOST_SHOWN = 100_000;

/**
 * An excerpt.
 * @param {object} excerpt what `excerptOf` has made
 * @param {() => Promise<Uint8Array>} whole asks for all bytes of the marked part
 */
export function excerptShown(excerpt, whole) {
    const { line, left } = excerpt;
    const lines = dedented(linesOf(excerpt));
    const rows = lines.map((pieces, index) => element('div', { class: 'line' },
        element('span', { class: 'number', 'aria-hidden': 'true' }, String(line + index)), element('code', {}, ...pieces.map(shown))));
    const shownLines = element('div', { class: 'excerpt', tabindex: '0', role: 'group', 'aria-label': say('excerpt.label', { line }) }, ...rows);
    return element('div', {}, shownLines, left > 0 ? moreOf(left, whole) : null);
}

function shown({ text, isMarked }) {
    return isMarked ? element('mark', {}, theirs(text, KEPT)) : theirs(text, KEPT);
}

/** The lines of an excerpt, each as pieces that are marked or not. */
function linesOf({ before, marked, left, after, cutBefore, cutAfter }) {
    const lines = [[]];
    const add = (text, isMarked) => text.replaceAll('\r\n', '\n').split('\n').forEach((part, index) => {
        if (index > 0) {
            lines.push([]);
        }
        if (part !== '') {
            lines.at(-1).push({ text: part, isMarked });
        }
    });
    add((cutBefore ? '… ' : '') + before, false);
    add(marked, true);
    add((left > 0 ? ' …' : '') + after + (cutAfter ? ' …' : ''), false);
    return lines;
}

// The lines without the blanks that all of them begin with.
function dedented(lines) {
    const blanks = lines.filter((pieces) => pieces.length > 0).map(([{ text }]) => /^[ \t]*/.exec(text)[0]);
    const shared = blanks.reduce((one, other) => (other.startsWith(one) ? one : one.startsWith(other) ? other : ''));
    return lines.map(([first, ...others]) => (first === undefined ? [] : [{ ...first, text: first.text.slice(shared.length) }, ...others]));
}

function moreOf(left, whole) {
    const holder = element('p', {});
    const more = button(say('excerpt.more', { count: left }), async () => {
        const bytes = await whole();
        if (bytes.length > MOST_SHOWN) {
            save(new Blob([bytes]), 'part.json');
        } else {
            holder.replaceChildren(box(textOf(bytes, 0, bytes.length), KEPT));
        }
    }, { class: 'small' });
    holder.append(more);
    return holder;
}
