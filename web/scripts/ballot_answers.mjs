// What the worker answers on the ballots of one file or two: which styles there are, which of them differ, and one ballot. All of this comes
// from the proved code, and so do the words.
import { orderOfKeys, textOfKey } from '../../bindings/js/lib/order.mjs';
import { besideItself, BothBallots, mergedLines } from './ballot_changes.mjs';
import { BallotWords } from './ballots.mjs';
import { aroundOf, unitsAround } from './overview.mjs';
import { hasWords } from './search.mjs';
import { shortened } from './visible.mjs';

/** How many lines of a ballot are shown at once. A long text counts as several. */
const MOST_LINES = 500;
const CHARACTERS_OF_LINE = 500;

/** The most lines of what differs on a ballot that are told, and the most characters of one. */
const MOST_BELOW = 30;
const LONGEST_BELOW = 300;

/** How many ballots are kept of those that were asked for. */
const MOST_KEPT = 20;

export class BallotAnswers {
    /**
     * @param {import('./report_words.mjs').ReportWords[]} reports of one file, or of the left and the right one
     * @param {{key: string[], left: number | null, right: number | null, below: string}[]} differing what `erd_ballot_differences` answers
     * @param {(call: string, sides: number[], ...positions: number[]) => any} ask what another call of the proved code answers on the ballots of
     *     these files: docs/API.md, "Ballots"
     */
    constructor(reports, differing, ask) {
        this.reports = reports;
        this.ask = ask;
        this.words = reports.map((report) => new BallotWords(report));
        this.told = reports.map((_, side) => new Map(ask('erd_ballots', [side]).map((head) => [textOfKey(head.key), head])));
        this.differing = new Map(differing.map((one) => [textOfKey(one.key), one]));
        this.kept = new Map();
    }

    /** What the proved code tells of each ballot style of a file. */
    toldHeads(side) {
        return [...this.told[side].values()];
    }

    /** The languages of all words. */
    languages() {
        return [...new Set(this.reports.flatMap(({ languages }) => languages))].sort();
    }

    /**
     * Some of the ballot styles of a group whose name, units or parties have the words, or what is around its units, and how many there are in
     * each group.
     * @param {{words: string, group: 'all' | 'differing' | 'same' | null, from: number, count: number}} question
     */
    styles({ words, group, from, count }) {
        const fitting = words.trim() === '' ? this.heads() : this.heads().filter((head) => hasWords(this.wordsOf(head), words));
        const counts = { all: fitting.length, differing: 0, same: 0 };
        fitting.forEach(({ mark }) => counts[mark === '' ? 'same' : 'differing']++);
        const chosen = group === 'all' ? fitting : fitting.filter(({ mark }) => (mark === '') === (group === 'same'));
        const entries = group === null ? [] : chosen.slice(from, from + count);
        return { counts, entries: entries.map((head) => ({ ...head, ...linesBelow(this.belowOf(head.key)) })) };
    }

    /** How many ballot styles there are, and how many of them differ. */
    seen() {
        return this.styles({ words: '', group: null, from: 0, count: 0 }).counts;
    }

    // What a ballot style is found by: what it is called, and the names, numbers and codes of its units and of those around them.
    wordsOf({ key, code, units, parties }) {
        this.around ??= this.reports.map(aroundOf);
        const found = this.told.flatMap((heads, side) => unitsAround((heads.get(key)?.units ?? []).map((unit) => this.reports[side].thing('unit', unit)),
            this.around[side]));
        return [code, ...units, ...parties, ...found.flatMap(wordsOfUnit)];
    }

    /** The head of each style, with whether it differs. */
    heads() {
        this.keptHeads ??= this.keys().map((key) => ({ key, ...this.inBoth(key, (side, head) => this.words[side].head(head))[1], mark: this.markOf(key) }));
        return this.keptHeads;
    }

    // The keys of all styles, as texts, in their rising order.
    keys() {
        const told = new Map(this.told.flatMap((heads) => [...heads]));
        return [...told].sort(([, one], [, other]) => orderOfKeys(one.key, other.key)).map(([key]) => key);
    }

    // Something of a style in each file, of its head. That of a file which lacks the style is that of the other.
    inBoth(key, made) {
        const some = this.sidesOf(key).map((side) => made(side, this.told[side].get(key)));
        return [some[0], some.at(-1)];
    }

    // The files that have a style.
    sidesOf(key) {
        return [...this.told.keys()].filter((side) => this.told[side].has(key));
    }

    markOf(key) {
        if (!this.differing.has(key)) {
            return '';
        }
        const { left, right } = this.differing.get(key);
        return right === null ? 'removed' : left === null ? 'added' : 'changed';
    }

    /** What the proved code says differs on the ballot of a style. */
    belowOf(key) {
        return this.differing.get(key)?.below ?? '';
    }

    /** The lines that say who gets the ballot of a style in each file. */
    votersOf(key) {
        return this.inBoth(key, (side, head) => this.words[side].voters(head));
    }

    /**
     * A part of a ballot, with what differs between the files marked. A style that one file lacks is shown as that of the other.
     * @param {{key: string, next: {item: number, line: number} | null}} question where the part begins; null for the beginning
     * @returns {{lines: object[], items: object[], next: {item: number, line: number} | null, left: number}} where the next part begins,
     *     and how many items are left
     */
    ballot({ key, next }) {
        const { lines, ballots } = this.ballotsOf(key);
        return { lines: mergedLines(...lines), ...partOf(ballots, next ?? { item: 0, line: 0 }) };
    }

    // The ballots of a style beside each other, and the first lines of each. They are kept for a while, since each answer judges the files anew.
    ballotsOf(key) {
        if (!this.kept.has(key)) {
            this.kept.set(key, this.madeBallots(key));
            [...this.kept.keys()].slice(0, -MOST_KEPT).forEach((old) => this.kept.delete(old));
        }
        return this.kept.get(key);
    }

    madeBallots(key) {
        const sides = this.sidesOf(key);
        const places = sides.map((side) => this.told[side].get(key).at);
        const alone = sides.length === 2 ? null : this.ask('erd_ballot', sides, ...places);
        const told = alone === null ? this.ask('erd_ballots_beside', sides, ...places) : besideItself(alone.lines);
        return {
            lines: this.inBoth(key, (side, head) => this.words[side].lines(head, this.electionOf(side, head, alone))),
            ballots: new BothBallots(told, this.inBoth(key, (side) => this.words[side])),
        };
    }

    // The key of the election of a ballot: only the ballot itself tells it. Of one election it is known already.
    electionOf(side, { at }, alone) {
        const [{ key }, ...others] = this.reports[side].of('election').values();
        return others.length === 0 ? key : (alone ?? this.ask('erd_ballot', [side], at)).election;
    }
}

function wordsOfUnit({ title, words: { Number: number = '' }, key }) {
    return [title ?? '', String(number), key[2]];
}

// Items from a place on, as many as a reader is shown at once. A contest with more lines than that is shown in parts too.
function partOf(ballots, { item, line }) {
    const items = [];
    const { count } = ballots;
    let room = MOST_LINES;
    let at = item;
    let from = line;
    for (; at < count && room > 0; at++, from = 0) {
        const { selections, ...merged } = ballots.item(at);
        room -= 1 + Math.ceil(lengthOf(merged.lines) / CHARACTERS_OF_LINE);
        if (selections === undefined) {
            items.push(merged);
            continue;
        }
        const some = selections.slice(from, from + Math.max(room, 1));
        room -= some.length;
        items.push({ ...merged, selections: some, first: from });
        if (from + some.length < selections.length) {
            return { items, next: { item: at, line: from + some.length }, left: count - at };
        }
    }
    return { items, next: at < count ? { item: at, line: 0 } : null, left: count - at };
}

function lengthOf(lines) {
    return lines.reduce((sum, { texts }) => sum + texts.reduce((most, { pieces }) => most + pieces.reduce((all, { text }) => all + text.length, 0), 0), 0);
}

// The first lines of what differs on a ballot, and how many there are.
function linesBelow(text) {
    const lines = text.split('\n').slice(0, -1);
    return { below: lines.slice(0, MOST_BELOW).map((line) => shortened(line, LONGEST_BELOW)), allBelow: lines.length };
}
