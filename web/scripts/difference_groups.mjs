// The proved list of differences for a reader: by kinds, with what is known of all of them together, and each as the page shows it.
import { insideOf } from './inside.mjs';
import { isOnBallots, printOf } from './printed.mjs';
import { rowsOfDifference } from './rows.mjs';

// The names of objects where they are not known.
const UNNAMED = [() => undefined, () => undefined];

export class Differences {
    /**
     * @param {import('../../bindings/js/index.d.ts').Difference[]} entries the proved list with its values, or its beginning if it is very long
     * @param {number} all how many differences there are
     * @param {(key: string[]) => string | null} [belowOf] the lines of the proved code that say what differs on the ballot of a style; null
     *     where they are not known
     * @param {import('./values.mjs').Called[] | null} called null where the files are too large for the names of objects to be known
     */
    constructor(entries, all, belowOf = () => null, called = null) {
        this.all = all;
        this.belowOf = belowOf;
        this.called = called ?? UNNAMED;
        this.hasWords = called !== null;
        this.entries = entries.map((entry, number) => ({ ...entry, number, ...(this.hasWords ? { print: printOf(entry, this.thingsOf(entry)) } : {}) }));
        this.kinds = kindsOf(this.entries);
    }

    thingsOf({ part, key }) {
        return this.called.map((ofSide) => ofSide(part, key)).filter((found) => found !== undefined);
    }

    /**
     * What is known of all differences together, and the first one.
     * @param {{all: number, differing: number} | null} ballots how many ballot styles there are, and how many of them differ; null where
     *     that is not known
     */
    told(ballots) {
        return {
            count: this.all,
            listed: this.entries.length,
            first: this.shown(this.entries[0]),
            seen: !this.hasWords || ballots === null ? null : { ballots, ...this.notOnBallots(ballots.differing) },
            tallies: talliesOf(this.entries),
            kinds: counted(this.kinds),
        };
    }

    // What a voter may see and the ballots don't tell, and what no ballot prints, by kinds with their counts. Where no ballot differs, that is
    // all of the differences.
    notOnBallots(differing) {
        const isTold = (entry) => differing > 0 && isOnBallots(entry, this.belowOf);
        const mostFirst = (some) => counted(kindsOf(some)).sort((one, other) => other.count - one.count);
        const unseen = this.entries.filter((entry) => !isVisible(entry));
        const leftOut = this.entries.filter((entry) => isVisible(entry) && !isTold(entry));
        return { leftOut: mostFirst(leftOut), noBallot: mostFirst(unseen), unseen: unseen.length };
    }

    // For a record, which has some: those that ballots tell come first, and then those that a voter may see beside them.
    get filed() {
        const rankOf = (entry) => (!isVisible(entry) ? 2 : isOnBallots(entry, this.belowOf) ? 0 : 1);
        this.keptFiled ??= !this.hasWords ? this.entries : this.entries.map((entry) => ({ entry, rank: rankOf(entry) }))
            .sort((one, other) => one.rank - other.rank).map(({ entry }) => entry);
        return this.keptFiled;
    }

    /** Some of all differences, of those of one kind, or of those of a record. */
    some({ kind, isFiled = false, from, count }) {
        const entries = kind === undefined ? (isFiled ? this.filed : this.entries) : this.kinds[kind].entries;
        return entries.slice(from, from + count).map((entry) => this.shown(entry));
    }

    shown(difference) {
        const { selections: _selections, values: _values, ...entry } = difference;
        const inside = insideOf(difference, this.called, this.belowOf);
        return { ...entry, ...rowsOfDifference(difference, this.called), ...(inside === undefined ? {} : { inside }) };
    }
}

function isVisible({ print }) {
    return print !== 'none';
}

function counted(kinds) {
    return kinds.map(({ entries, ...kind }) => ({ ...kind, count: entries.length }));
}

/**
 * How many objects of each part differ, and how, in the order of the list.
 * @param {{part: string, key: string[] | null, how: string}[]} entries
 * @returns {{part: string, 'only left': number, 'only right': number, differ: number, members: number}[]}
 */
export function talliesOf(entries) {
    const tallies = new Map();
    let last = null;
    for (const { part, key, how } of entries) {
        const tally = tallies.get(part) ?? { part, 'only left': 0, 'only right': 0, differ: 0, members: 0 };
        tallies.set(part, tally);
        const object = JSON.stringify([part, key]);
        if (how === 'only left' || how === 'only right') {
            tally[how]++;
        } else {
            tally.differ += object === last ? 0 : 1;
            tally.members += how === 'member' ? 1 : 0;
        }
        last = object;
    }
    return [...tallies.values()];
}

// The differences by their kinds, in the order of the list: of which objects they are, and what differs.
function kindsOf(entries) {
    const kinds = new Map();
    for (const entry of entries) {
        const { part, how, member = null } = entry;
        const name = JSON.stringify([part, how, member]);
        kinds.set(name, kinds.get(name) ?? { part, how, member, entries: [] });
        kinds.get(name).entries.push(entry);
    }
    return [...kinds.values()];
}
