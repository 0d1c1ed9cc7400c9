// What a record has of the differences or the faults, in print: the first hundred, and how many there are.
import { insideSentence, sentence } from './comparison.mjs';
import { element, saidWith, theirs } from './dom.mjs';
import { say } from './texts.mjs';
import { passageOf, shortened } from './visible.mjs';

/** How many of them a record has. */
export const MOST_FILED = 100;

const LONGEST_VALUE = 160;
const MOST_ROWS = 3;
const MOST_INSIDE = 20;

/**
 * The differences of two files.
 * @param {object[]} entries the first of them, as `Judgement.more` answers
 * @param {{count: number, listed: number}} known how many there are, and how many of them are known
 * @param {string[]} names
 */
export function differencesFiled(entries, { count, listed }, names) {
    const items = entries.map((entry) => element('li', { value: String(entry.number + 1) }, sentence(entry, names),
        ...linesOf(entry, names).map((line) => element('div', {}, line))));
    return element('div', { 'data-filed': 'differences' }, element('h4', {}, say('difference.all', { count })),
        entries[0].print === undefined || count === 1 ? null : element('p', {}, listed === count ? say('record.order') : say('record.orderPart', { listed })),
        element('ol', {}, ...items), leftOut(count - items.length));
}

// What differs inside selections, with their values, or on a ballot, or else the values of a member.
function linesOf(entry, names) {
    if (entry.inside === undefined || entry.inside === null) {
        return [...(entry.inside === null ? [say('inside.notTold')] : []), ...valuesOf(entry)];
    }
    const { count, entries } = entry.inside;
    if (count === 0) {
        return [say('inside.carried')];
    }
    const some = entries.slice(0, MOST_INSIDE);
    return [...some.flatMap((one) => [insideSentence(one, names), ...valuesOf(one)]),
        ...(some.some(({ isTooLong }) => isTooLong) ? [say('inside.tooLong')] : []),
        ...(count === some.length ? [] : [say('inside.more', { count: count - some.length })])];
}

// The values of a member, and why two of them look alike. Where neither has a line, one is not there, and the other is empty.
function valuesOf({ rows, there, lacking = [] }) {
    if (lacking.length > 0 && lacking.every((isLacking) => isLacking)) {
        const [left, right] = there.map((is) => element('em', {}, say(is ? 'difference.empty' : 'difference.notThere')));
        return [saidWith('record.values', { left, right })];
    }
    const changed = (rows ?? []).filter(({ same }) => same === false);
    const more = changed.length - MOST_ROWS + (rows?.at(-1)?.more ?? 0);
    return [...changed.slice(0, MOST_ROWS).flatMap(valueLines), ...(more > 0 ? [say('difference.moreLines', { count: more })] : [])];
}

function valueLines({ left, right, pieces, alike = [] }) {
    return [saidWith('record.values', { left: valueOf(left, pieces?.left), right: valueOf(right, pieces?.right) }), ...alike.map((way) => say(`alike.${way}`))];
}

// A line; of a long one what differs, with some words around it.
function valueOf(line, pieces) {
    if (line === null) {
        return element('em', {}, say('difference.notThere'));
    }
    return theirs(line.text.length <= LONGEST_VALUE || pieces === undefined ? shortened(line.text, LONGEST_VALUE) : passageOf(pieces));
}

/**
 * The faults of one file.
 * @param {string[]} lines the first of them, as the program writes them
 */
export function faultsFiled(lines, count, name) {
    const items = lines.map((line) => element('li', {}, element('code', {}, theirs(shortened(line, 400)))));
    return element('div', { 'data-filed': 'faults' }, element('h4', {}, saidWith('faults.heading', { name: theirs(name) }, { count })),
        element('ol', {}, ...items), leftOut(count - items.length));
}

function leftOut(count) {
    return count === 0 ? null : element('p', {}, say('record.more', { count }));
}
