// The results of the calls. They are made from the JSON text that the proved code answers, and never from lines.
import { lineOfDifference, lineOfFault, pointerOf, wordsOf } from './words.mjs';

/** The exit status of the program for each outcome. */
const STATUSES = { accepted: 0, same: 0, refused: 1, different: 1, 'not JSON': 2 };

/** How a call that reads one report ended. */
export class Checked {
    /** @param {'accepted' | 'refused' | 'not JSON'} outcome */
    constructor(outcome, faults, allFaults) {
        this.outcome = outcome;
        this.status = STATUSES[outcome];
        this.accepted = outcome === 'accepted';
        this.faults = faults;
        this.allFaults = allFaults;
        this.more = faults.length < allFaults;
    }

    /** What `erd check` writes, as far as the faults are listed. */
    get text() {
        return linesOfReport(this).map(ended).join('');
    }
}

/** A report's canonical form, or why it has none. */
export class Canonical extends Checked {
    /** @param {Uint8Array | null} bytes the canonical form; null if the report is refused */
    constructor(outcome, faults, allFaults, bytes) {
        super(outcome, faults, allFaults);
        this.bytes = bytes;
    }

    /** The canonical form, with no line end; of a refused report what `erd check` writes. */
    get text() {
        return this.bytes === null ? super.text : new TextDecoder().decode(this.bytes);
    }
}

/** How a comparison ended. */
export class Compared {
    /** @param {'same' | 'different' | 'refused' | 'not JSON'} outcome */
    constructor(outcome, { difference = null, side = null, faults = [], allFaults = 0 }) {
        this.outcome = outcome;
        this.status = STATUSES[outcome];
        this.same = outcome === 'same';
        this.difference = difference;
        this.side = side;
        this.faults = faults;
        this.allFaults = allFaults;
        this.more = faults.length < allFaults;
    }

    /** What `erd compare` writes, as far as the faults are listed. */
    get text() {
        return linesOfPair(this, this.difference === null ? [] : [this.difference]).map(ended).join('');
    }
}

/** All differences of two reports. */
export class Differences {
    /** @param {'same' | 'different' | 'refused' | 'not JSON'} outcome */
    constructor(outcome, { differences = [], allDifferences = 0, side = null, faults = [], allFaults = 0 }) {
        this.outcome = outcome;
        this.status = STATUSES[outcome];
        this.same = outcome === 'same';
        this.differences = differences;
        this.allDifferences = allDifferences;
        this.side = side;
        this.faults = faults;
        this.allFaults = allFaults;
        this.more = differences.length < allDifferences || faults.length < allFaults;
    }

    /** `same`, or the line of each difference that is listed; of a refused report what `erd compare` writes. */
    get text() {
        return linesOfPair(this, this.differences).map(ended).join('');
    }
}

/**
 * The result of `check`.
 * @param {'not JSON' | object[]} answer the value that `erd_check_data_piece` answers
 * @param {number} all how many faults the report has
 */
export function checkedOf(answer, all) {
    return new Checked(outcomeOf(answer, all), faultsOf(answer), all);
}

/**
 * The result of `canonical` for a report that has no canonical form.
 * @param {'not JSON' | object[]} answer the value that `erd_canonical_data_piece` answers
 * @param {number} all how many faults the report has
 */
export function withoutCanonical(answer, all) {
    return new Canonical(outcomeOf(answer, all), faultsOf(answer), all, null);
}

/**
 * The result of `canonical` for an accepted report.
 * @param {Uint8Array} bytes the canonical form
 */
export function withCanonical(bytes) {
    return new Canonical('accepted', [], 0, bytes);
}

/**
 * The result of `compare`.
 * @param {null | object} answer the value that `erd_compare_data_piece` answers
 * @param {number} all how many faults the report has
 */
export function comparedOf(answer, all) {
    if (answer === null) {
        return new Compared('same', {});
    }
    return 'refused' in answer ? new Compared(outcomeOf(answer.faults, all), refusalOf(answer, all))
        : new Compared('different', { difference: differenceOf(answer) });
}

/**
 * The result of `differences`.
 * @param {object | object[]} answer the value that `erd_differences_values` answers
 * @param {number} all how many entries the list has
 */
export function differencesOf(answer, all) {
    if ('refused' in answer) {
        return new Differences(outcomeOf(answer.faults, all), refusalOf(answer, all));
    }
    return new Differences(all === 0 ? 'same' : 'different', { differences: answer.map(differenceOf), allDifferences: all });
}

function refusalOf({ refused, faults }, all) {
    return { side: refused, faults: faultsOf(faults), allFaults: all };
}

function outcomeOf(answer, all) {
    if (answer === 'not JSON') {
        return answer;
    }
    return all === 0 ? 'accepted' : 'refused';
}

function faultsOf(answer) {
    return answer === 'not JSON' ? [] : answer.map(faultOf);
}

function faultOf({ place, reason, name }) {
    const pointer = pointerOf(place);
    const words = wordsOf(reason, name);
    return { place, pointer, reason, ...(name === undefined ? {} : { name }), words, line: lineOfFault(pointer, words) };
}

function differenceOf({ part, key, how, member, selections, values }) {
    const difference = { part, key, ...wayOf({ how, member }) };
    const inside = selections === undefined ? {} : { selections: selections.map(({ name, values, ...way }) => ({ name, ...wayOf(way), values })) };
    return { ...difference, ...inside, ...(values === undefined ? {} : { values }), line: lineOfDifference(difference) };
}

// How two objects or two selections differ. The rest of an answer is no part of a result.
function wayOf({ how, member }) {
    return { how, ...(member === undefined ? {} : { member }) };
}

// The lines of `erd check` for a report, without their line feeds. A name in a line may have a line feed itself.
function linesOfReport({ outcome, faults }) {
    return outcome === 'refused' ? faults.map((fault) => fault.line) : [outcome];
}

// The lines about two reports: why one is refused, or else `same` or how they differ.
function linesOfPair(result, differences) {
    if (result.side !== null) {
        return linesOfReport(result).map((line) => `${result.side}: ${line}`);
    }
    return result.same ? ['same'] : differences.map((difference) => difference.line);
}

/** A line with its end. */
export function ended(line) {
    return line + '\n';
}
