// A difference of two files: in plain words, and with both values beside each other.
import { paragraphs } from './faults.mjs';
import { element, long, saidWith, theirs, wideTable, withWhole } from './dom.mjs';
import { say, sayIfKnown } from './texts.mjs';
import { textOfTriple } from './values.mjs';
import { around } from './visible.mjs';

const LONGEST_LINE = 400;
const AROUND = 80;
const LONGEST_TITLE = 60;

let explanations = null;

/** Takes the explanations that stand behind texts which look alike. */
export function useExplanations(fixes) {
    explanations = fixes;
}

/** The first difference in plain words, with the values of both files beside each other where they are known. */
export function firstDifference(first, names) {
    const groups = first.titles === undefined ? [] : [...objectGroups(first), ...memberGroups(first), ...insideGroups(first)];
    return element('section', { 'aria-labelledby': 'first-difference' },
        element('h3', { id: 'first-difference' }, say('difference.first')),
        element('p', { class: 'sentence' }, sentence(first, names)), ...insideShown(first, names), groups.length === 0 ? null : table(groups, names));
}

/** A difference of the list: its sentence, and when it is opened what differs inside its selections, and the values. */
export function differenceEntry(entry, names) {
    if (entry.rows === undefined && entry.inside === undefined) {
        return element('li', {}, sentence(entry, names));
    }
    const details = element('details', {}, element('summary', {}, sentence(entry, names)));
    details.addEventListener('toggle', () => details.append(...insideShown(entry, names), ...valuesShown(entry, names)), { once: true });
    return element('li', {}, details);
}

function valuesShown(entry, names) {
    const groups = entry.rows === null ? objectGroups(entry) : [...memberGroups(entry), ...insideGroups(entry)];
    return groups.length === 0 ? [] : [table(groups, names)];
}

// ---- the sentence

export function sentence({ part, key, how, member, titles, classes }, names) {
    const nodes = { object: object(part, titles ?? [], key), member: memberWords(member ?? ''), left: theirs(names[0]),
        right: theirs(names[1]), leftClass: code(classes?.[0] ?? ''), rightClass: code(classes?.[1] ?? '') };
    return saidWith(`difference.${how}`, nodes);
}

export function object(part, titles, key) {
    const title = titles.find((text) => text !== null) ?? null;
    return element('strong', {}, say(`subject.${part}`),
        ...(title === null ? [] : [' ', saidWith('trail.title', { title: long(title, LONGEST_TITLE) })]),
        ...(key === null ? [] : [' ', saidWith('difference.key', { key: long(textOfTriple(key), LONGEST_TITLE) })]));
}

function code(text) {
    return element('code', {}, long(text, LONGEST_TITLE));
}

/** A member in plain words, with the name that the standard has for it. A carried member has its name alone. */
export function memberWords(name) {
    const words = sayIfKnown(`member.${name}`);
    return words === undefined ? element('span', {}, code(name)) : element('span', {}, `${words} (`, code(name), ')');
}

// ---- what differs inside the selections of two contests, or on the ballots of two styles

function insideShown({ inside }, names) {
    if (inside === undefined) {
        return [];
    }
    if (inside === null) {
        return [element('p', { class: 'note' }, say('inside.notTold'))];
    }
    if (inside.count === 0) {
        return [element('p', { class: 'note' }, say('inside.carried'))];
    }
    const more = inside.count - inside.entries.length;
    return [element('p', { class: 'inside-heading' }, say(`inside.heading.${inside.part}`, { count: inside.count })),
        element('ul', { class: 'inside' }, ...inside.entries.map((one) => element('li', {}, insideSentence(one, names))),
            more === 0 ? null : element('li', {}, say('inside.more', { count: more }))),
        ...inside.entries.some(({ isTooLong }) => isTooLong) ? [element('p', { class: 'note' }, say('inside.tooLong'))] : []];
}

/** A difference inside selections or on a ballot, as a sentence. */
export function insideSentence({ how, member, name }, names) {
    return saidWith(`inside.${how}`, { selection: nameShown(name), member: memberWords(member ?? ''), left: theirs(names[0]), right: theirs(names[1]) });
}

function nameShown(name) {
    return element('strong', {}, long(name, LONGEST_LINE));
}

// ---- the table: groups of rows, each group with a heading

// What the object is called in each file, its identifier, and its class if the classes differ.
function objectGroups({ how, titles, classes, key }) {
    const keyText = key === null ? null : textOfTriple(key);
    const there = [how !== 'only right', how !== 'only left'];
    const groups = [['difference.name', titles], ['difference.identifier', there.map((is) => (is ? keyText : null))]];
    if (how === 'other class') {
        groups.push(['difference.class', classes]);
    }
    return groups.filter(([, texts]) => texts.some((text) => text !== null))
        .map(([key, texts]) => ({ heading: say(key), rows: [element('tr', {}, ...texts.map((text) => textCell(text, texts)))] }));
}

function textCell(text, texts) {
    const same = texts[0] === texts[1];
    return lineCell(text === null ? null : { text }, same, undefined, () => absent('difference.notThere'));
}

// The member's value in each file.
function memberGroups({ how, member, rows, there, lacking }) {
    if (how !== 'member' || rows === undefined) {
        return [];
    }
    const words = lacking.map((isLacking, side) => (isLacking ? absent(there[side] ? 'difference.empty' : 'difference.notThere') : null));
    return [{ heading: memberWords(member), rows: [...lackingRow(words), ...rows.flatMap(rowShown)] }];
}

// The values of each member in which two selections differ.
function insideGroups({ inside }) {
    return (inside?.entries ?? []).flatMap((one) => memberGroups(one).map(({ heading, rows }) => ({
        heading: saidWith('inside.values', { selection: nameShown(one.name), member: heading }), rows })));
}

function lackingRow(lacking) {
    return lacking.every((words) => words === null) ? []
        : [element('tr', {}, ...lacking.map((words) => (words === null ? element('td', {}) : element('td', { class: 'changed' }, words))))];
}

// A row, or how many are left out.
function rowShown(shown) {
    const { left, right, same, pieces, alike, equal, more } = shown;
    if (same === undefined) {
        return [gap(more === undefined ? 'difference.equalLines' : 'difference.moreLines', more ?? equal)];
    }
    const row = element('tr', { class: same ? 'same' : 'differs' },
        lineCell(left, same, pieces?.left), lineCell(right, same, pieces?.right));
    return alike === undefined || alike.length === 0 ? [row]
        : [row, element('tr', {}, element('td', { colspan: '2', class: 'alike' }, ...alike.map(whyShown)))];
}

// Why two texts look alike, with the explanation of docs/FIXES.md to open.
function whyShown(way) {
    const why = say(`alike.${way}`);
    return Object.hasOwn(explanations.alike, way) ? element('details', {}, element('summary', {}, why), ...paragraphs(explanations.alike[way]))
        : element('p', {}, why);
}

function gap(key, count) {
    return element('tr', {}, element('td', { colspan: '2', class: 'gap' }, say(key, { count })));
}

// A line of a value. Where the pieces of two lines are known, those that differ are marked.
function lineCell(line, same, pieces, otherwise = () => null) {
    if (line === null) {
        return element('td', {}, otherwise());
    }
    const shown = element('div', { class: 'value' }, ...pieces === undefined ? [long(line.text, LONGEST_LINE)] : piecesShown(line.text, pieces));
    return same ? element('td', {}, shown) : element('td', { class: 'changed' }, differsSign(), shown);
}

// The sign of a difference, with a word for screen readers.
function differsSign() {
    return element('span', { class: 'sign' }, element('span', { 'aria-hidden': 'true' }, '≠'),
        element('span', { class: 'visually-hidden' }, say('difference.sign')));
}

// A line with what differs marked. Of a long line, what stands around that.
function piecesShown(text, pieces) {
    const isLong = text.length > LONGEST_LINE;
    const marked = pieces.map(({ text: part, changed }, index) => (changed ? element('mark', {}, long(part, LONGEST_LINE))
        : theirs(isLong ? around(part, AROUND, index > 0, index < pieces.length - 1) : part)));
    return isLong ? [withWhole(text, marked)] : marked;
}

function absent(key) {
    return element('em', {}, say(key));
}

function table(groups, names) {
    const bodies = groups.map(({ heading, rows }) => element('tbody', {},
        element('tr', {}, element('th', { scope: 'rowgroup', colspan: '2', class: 'group' }, heading)), ...rows));
    return wideTable(say('difference.caption'), 'sides', names.map((name) => theirs(name)), ...bodies);
}
