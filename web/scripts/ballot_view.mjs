// One ballot as elements. Where two files are compared, what differs is marked in place.
import { isUnchangedLine } from './ballot_changes.mjs';
import { STATEMENTS } from './ballots.mjs';
import { element, long, saidWith, theirs } from './dom.mjs';
import { languageText, say, sayIfKnown } from './texts.mjs';
import { beginningOf } from './visible.mjs';

const LONGEST = 4000;
const LONGEST_PRINTED = 100_000;
const LONGEST_TITLE = 60;
const DEEPEST = 4;
const LANGUAGE = /^[a-z]{2,8}(-[a-z0-9]{1,8})*$/i;

/**
 * A ballot.
 * @param {{lines: object[], items: object[]}} ballot what `Judgement.ballot` has made
 */
export function ballotShown({ lines, items }) {
    return element('div', { class: 'ballot' }, headShown(lines, onScreen),
        items.length === 0 ? element('p', {}, say('ballots.empty')) : null, ...items.map(itemShown));
}

/** The items of a further part of a ballot. */
export function itemsShown({ items }) {
    return items.map(itemShown);
}

/**
 * A piece of a ballot, which stands in one column. One that `keeps` is followed by the next one there. Pieces of one item have its number
 * and its title.
 * @typedef {{element: HTMLElement, keeps: boolean, item: number, title: string}} Piece
 */

/**
 * A ballot in pieces, for print.
 * @param {{lines: object[], items: object[]}} ballot
 * @returns {Piece[]}
 */
export function ballotInPieces({ lines, items }) {
    const begun = [headShown(lines, onPaper), ...(items.length === 0 ? [element('p', {}, say('ballots.empty'))] : [])];
    return [...begun.map(pieceAlone), ...items.flatMap(itemInPieces)];
}

/** A piece that is an item of its own. */
export function pieceAlone(one) {
    return { element: one, keeps: false, item: -1, title: '' };
}

function itemInPieces(item, number) {
    const statements = item.lines.filter(({ role }) => STATEMENTS.includes(role));
    const [title, ...heads] = item.lines.filter(({ role }) => !STATEMENTS.includes(role)).map((line) => lineShown(line, onPaper));
    const note = noteOf(item);
    const parts = [
        [markOf(item), title, ...lackingShown(item), ...heads],
        ...statements.map((line) => [lineShown(line, onPaper)]),
        ...(item.selections ?? []).map((selection, at) => [element('ol', { start: String(item.first + at + 1) }, selectionShown(selection, onPaper))]),
        ...(note === null ? [] : [[note]]),
    ];
    const name = beginningOf(item.lines[0].texts[0].pieces.map(({ text }) => text).join(''), LONGEST_TITLE);
    const last = parts.length - 1;
    return parts.map((nodes, at) => {
        const one = holderOf(item, nodes);
        one.classList.toggle('begins', at === 0);
        one.classList.toggle('ends', at === last);
        return { element: one, keeps: item.kind === 'header' || (at < last && (at === 0 || at === last - 1)), item: number, title: name };
    });
}

function itemShown(item) {
    const note = noteOf(item);
    const list = item.selections === undefined ? null
        : element('ol', { start: String(item.first + 1) }, ...item.selections.map((one) => selectionShown(one, onScreen)));
    return holderOf(item, [markOf(item), ...linesShown(item), list, note]);
}

function holderOf({ kind, mark, depth }, nodes) {
    return element('div', { class: `${kind} ${mark}`.trim(), 'data-depth': String(Math.min(depth, DEEPEST)) }, ...nodes);
}

function headShown(lines, shown) {
    return element('div', { class: 'ballot-head' }, ...lines.map((line) => lineShown(line, shown)));
}

// The lines of a header or a contest. Which languages its title lacks stands right below the title.
function linesShown(item) {
    const [title, ...others] = item.lines.map((line) => lineShown(line, onScreen));
    return [title, ...lackingShown(item), ...others];
}

function lackingShown({ lacking = [] }) {
    return lacking.map((lang) => element('p', { class: 'lacking' }, element('span', { class: 'text own', 'data-lang': lang },
        lang === '' ? say('ballot.titleInNone') : saidWith('ballot.untitled', { language: theirs(languageText(lang)) }))));
}

function noteOf({ selections, unlisted, ordered }) {
    const key = selections === undefined ? null : !ordered ? 'ballot.unlistedChanged' : unlisted && selections.length > 1 ? 'ballot.unlisted' : null;
    return key === null ? null : element('p', { class: 'own' }, say(key));
}

function selectionShown(item, shown) {
    return element('li', { class: `selection ${item.mark}`.trim() }, markOf(item), ...item.lines.map((line) => lineShown(line, shown)));
}

// Whether the item was added, removed or moved, and whether it has another identifier.
function markOf({ mark, from, to, renamed }) {
    const key = mark === 'moved' && from === to ? 'movedElsewhere' : mark;
    const words = [...(mark === '' ? [] : [say(`ballot.${key}`, { from, to })]), ...(renamed ? [say('ballot.renamed')] : [])];
    return words.length === 0 ? null : element('span', { class: 'ballot-mark' }, words.join('; '));
}

function lineShown(line, shown) {
    const label = sayIfKnown(`ballot.role.${line.role}`);
    const texts = line.texts.map(({ lang, pieces }) => textShown(lang, pieces, line.own, shown));
    return element('p', { class: `line-${line.role}${isUnchangedLine(line) ? '' : ' reworded'}` },
        label === undefined ? null : element('span', { class: 'own' }, label), ...texts);
}

function textShown(lang, pieces, own, shown) {
    const attributes = { class: own ? 'text own' : 'text', dir: 'auto', 'data-lang': lang, ...(LANGUAGE.test(lang) ? { lang } : {}) };
    return element('span', attributes, ...pieces.map((piece) => pieceShown(piece, shown)));
}

function pieceShown({ text, mark }, shown) {
    if (mark === '') {
        return shown(text);
    }
    return element(mark === 'added' ? 'ins' : 'del', {}, element('span', { class: 'visually-hidden' }, `${say(`ballot.word.${mark}`)} `), shown(text));
}

function onScreen(text) {
    return long(text, LONGEST, '\n');
}

// Nothing can be opened on paper, so a text stands there whole; of one that would fill many sheets it is said how much is left out.
function onPaper(text) {
    return text.length <= LONGEST_PRINTED ? theirs(text, '\n') : element('span', {}, theirs(`${beginningOf(text, LONGEST_PRINTED)}…`, '\n'), ' ',
        element('strong', {}, say('sheet.cut', { count: text.length - LONGEST_PRINTED })));
}

/** Shows the texts of one language alone, or of all. Texts without a language stay. */
export function spoken(node, lang) {
    const texts = [...node.querySelectorAll('.text[data-lang]')];
    texts.forEach((text) => {
        text.hidden = lang !== '' && text.dataset.lang !== '' && text.dataset.lang !== lang;
    });
    // A line of which no text is left goes with the page's own words before it.
    new Set(texts.map((text) => text.parentElement)).forEach((line) => {
        line.hidden = [...line.querySelectorAll(':scope > .text')].every(({ hidden }) => hidden);
    });
}
