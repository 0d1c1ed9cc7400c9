// The results of the calls on ballots.
import { Checked, Compared, ended } from './results.mjs';
import { lineOfBallot } from './words.mjs';

const WORDS = { 'only left': 'only in the left report', 'only right': 'only in the right report', differs: 'differs' };

/** The ballots of a report, or why it has none. */
export class Ballots extends Checked {
    /** @param {object[] | null} heads what `erd_ballots` answers for an accepted report */
    constructor({ outcome, faults, allFaults }, heads) {
        super(outcome, faults, allFaults);
        this.ballots = (heads ?? []).map(({ at, key, lines, parties, units }) => (
            { position: at, key, allLines: lines, parties, units, line: lineOfBallot(key, `${lines} lines`) }));
    }

    /** What `erd ballots` writes, as far as the faults are listed. */
    get text() {
        return this.accepted ? this.ballots.map(({ line }) => ended(line)).join('') : super.text;
    }
}

/** One ballot of a report, or why there is none. */
export class OneBallot extends Checked {
    /** @param {object | null} ballot what `erd_ballot` answers for an accepted report */
    constructor({ outcome, faults, allFaults }, ballot) {
        super(outcome, faults, allFaults);
        this.ballot = ballot === null ? null : { ...ballot, lines: ballot.lines.map(lineOf) };
    }
}

function lineOf({ what: [what, key], depth, listed, selections }) {
    return { what, key, depth, isListed: listed, selections };
}

/** Two ballots beside each other, or which report is refused, and why. */
export class BallotsBeside extends Checked {
    /**
     * @param {'left' | 'right' | null} side the report that is refused
     * @param {object | null} beside what `erd_ballots_beside` answers for accepted reports
     */
    constructor(side, { outcome, faults, allFaults }, beside) {
        super(outcome, faults, allFaults);
        this.side = side;
        this.ballots = beside === null ? null : { left: beside.left.map(lineOf), right: beside.right.map(lineOf), rows: beside.rows };
    }
}

/** Which ballots are not the same in two reports, or which report is refused, and why. */
export class BallotDifferences extends Compared {
    /**
     * @param {'left' | 'right' | null} side the report that is refused
     * @param {object[]} differences what `erd_ballot_differences` answers for accepted reports
     */
    constructor(side, { outcome, faults, allFaults }, differences) {
        super(side !== null ? outcome : differences.length === 0 ? 'same' : 'different', { side, faults, allFaults });
        this.differences = differences.map(differenceOf);
    }

    /** What `erd ballots` writes, as far as the faults are listed. */
    get text() {
        if (this.side !== null) {
            return super.text;
        }
        return this.same ? ended('same ballots') : this.differences.flatMap(({ line, below }) => [line, ...below]).map(ended).join('');
    }
}

function differenceOf({ below, key, left, right }) {
    const how = right === null ? 'only left' : left === null ? 'only right' : 'differs';
    return { key, left, right, how, line: lineOfBallot(key, WORDS[how]), below: below.split('\n').slice(0, -1) };
}
