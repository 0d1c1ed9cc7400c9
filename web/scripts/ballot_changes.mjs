// Two ballots beside each other, with the words of both: which line stands beside which, and what was added, removed or moved, comes from the
// proved code. Here the words that differ are marked.
import { compactText } from '../../bindings/js/lib/exact.mjs';
import { textOfKey } from '../../bindings/js/lib/order.mjs';
import { mergedText } from './text_changes.mjs';

const MARKS = { both: '', removed: 'removed', added: 'added', 'moved here': 'moved' };

/**
 * A line of a ballot, as `erd_ballot` tells it.
 * @typedef {{what: [string, string[]], depth: number, listed: boolean, selections: any[][]}} Line
 * Two ballots, as `erd_ballots_beside` tells them.
 * @typedef {{left: Line[], right: Line[], rows: {how: string, left: number | null, right: number | null,
 *     selections: {how: string, name: any[]}[]}[]}} Told
 */

/**
 * One ballot beside itself.
 * @param {Line[]} lines
 * @returns {Told}
 */
export function besideItself(lines) {
    return { left: lines, right: lines, rows: lines.map((_, at) => ({ how: 'both', left: at, right: at, selections: [] })) };
}

/** Two ballots as one list, in the order of the right one. What was removed stands where it stood. */
export class BothBallots {
    /**
     * @param {Told} told
     * @param {import('./ballots.mjs').BallotWords[]} words of the left report and of the right one
     */
    constructor({ left, right, rows }, words) {
        const [ones, others] = [left, right].map((lines, side) => numbered(lines, words[side]));
        this.ballots = [ones, left === right ? ones : others];
        this.rows = rows.filter(isShown);
        this.hasOther = otherIdentifiers(this.rows, (row) => this.linesOf(row)[0].words().print);
    }

    /** How many headers and contests the list has. */
    get count() {
        return this.rows.length;
    }

    /** One header or contest. */
    item(at) {
        const row = this.rows[at];
        const [one, other] = this.linesOf(row);
        const { kind, depth } = other;
        const [first, second] = [one, other].map(({ words }) => words());
        return {
            kind, depth, mark: one.depth === depth ? MARKS[row.how] : 'moved', from: one.number, to: other.number, renamed: this.hasOther(row),
            lines: mergedLines(first.lines, second.lines), lacking: second.lacking,
            ...(kind === 'contest' ? selectionsOf(row, one, other) : {}),
        };
    }

    // The line of a row on each ballot. One that a ballot lacks is that of the other.
    linesOf({ left, right }) {
        const [one, other] = [left, right].map((place, side) => this.ballots[side][place]);
        return [one ?? other, other ?? one];
    }
}

// The lines of a ballot, each with its number among those of its kind, and its words.
function numbered(lines, words) {
    const counts = { header: 0, contest: 0 };
    return lines.map(({ what: [kind, key], ...line }) => ({ ...line, kind, number: ++counts[kind], words: () => words.words(kind, textOfKey(key)) }));
}

// What moved is shown where it is now.
function isShown({ how }) {
    return how !== 'moved away';
}

/**
 * Tells of a row whether only one ballot has it, and the other one has the same words under another identifier.
 * @param {{how: string}[]} rows
 * @param {(row: object) => string} printOf
 * @returns {(row: object) => boolean}
 */
export function otherIdentifiers(rows, printOf) {
    const printed = (how) => new Set(rows.filter((row) => row.how === how).map(printOf));
    const others = { removed: printed('added'), added: printed('removed') };
    return (row) => others[row.how]?.has(printOf(row)) ?? false;
}

// The selections of a contest: all of them where only one ballot has it. Where only one ballot gives an order, they stand in that.
function selectionsOf({ selections: told }, one, other) {
    const rows = (one === other ? one.selections.map((name) => ({ how: 'both', name })) : told.filter(isShown))
        .map(({ how, name }) => ({ how, name: compactText(name) }));
    const ordered = one.listed === other.listed;
    const [left, right] = [one, other].map(({ selections }) => new Map(selections.map((name, at) => [compactText(name), at + 1])));
    if (!ordered) {
        const places = other.listed ? right : left;
        rows.sort((first, second) => (places.get(first.name) ?? rows.length) - (places.get(second.name) ?? rows.length));
    }
    const wordsOf = ({ how, name }) => [how === 'added' ? other : one, how === 'removed' ? one : other].map(({ words }) => words().selections.get(name));
    const hasOther = otherIdentifiers(rows, (row) => wordsOf(row)[0].print);
    const selections = rows.map((row) => {
        const [first, second] = wordsOf(row);
        return {
            mark: MARKS[row.how], from: left.get(row.name), to: right.get(row.name), renamed: hasOther(row),
            lines: mergedLines(first.lines, second.lines),
        };
    });
    return { selections, unlisted: !other.listed, ordered };
}

// What is kept of pairs of lines. A contest stands on many ballots, and may stand on one ballot many times.
const MERGED = new WeakMap();

/** The lines of two items: those with the same role and place belong together. */
export function mergedLines(left, right) {
    const kept = MERGED.get(left) ?? new WeakMap();
    MERGED.set(left, kept);
    if (!kept.has(right)) {
        kept.set(right, linesOfBoth(left, right));
    }
    return kept.get(right);
}

function linesOfBoth(left, right) {
    const [ones, others] = [left, right].map(byRole);
    const keys = [...new Set([...others.keys(), ...ones.keys()])];
    return keys.map((key) => {
        const { role, own } = others.get(key) ?? ones.get(key);
        return { role, own: own === true, texts: mergedLabels(ones.get(key)?.label ?? [], others.get(key)?.label ?? []) };
    });
}

// What is said of a candidate belongs to the name before it.
const OF_NAME = new Set(['profession', 'incumbent']);

function byRole(lines) {
    const counts = {};
    return new Map(lines.map((line) => {
        counts[line.role] = (counts[line.role] ?? 0) + 1;
        return [`${line.role} ${OF_NAME.has(line.role) ? counts.name : counts[line.role]}`, line];
    }));
}

// The texts of two labels, by language. A label may have two texts in one language.
function mergedLabels(left, right) {
    const [ones, others] = [left, right].map(byLanguage);
    return [...new Set([...ones.keys(), ...others.keys()])].sort().map((key) => ({
        lang: (ones.get(key) ?? others.get(key)).lang, pieces: mergedText(ones.get(key)?.text ?? '', others.get(key)?.text ?? ''),
    }));
}

function byLanguage(label) {
    const counts = new Map();
    return new Map(label.map((entry) => {
        counts.set(entry.lang, (counts.get(entry.lang) ?? 0) + 1);
        return [`${entry.lang} ${counts.get(entry.lang)}`, entry];
    }));
}

/** Whether no word of a line is marked. */
export function isUnchangedLine({ texts }) {
    return texts.every(({ pieces }) => pieces.every(({ mark }) => mark === ''));
}
