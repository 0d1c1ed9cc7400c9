// Judges one file or two. It runs in the worker, keeps what it has found, and answers questions about it. Each answer is made
// when it is asked for, so that the verdict waits for nothing else.
import { BallotAnswers } from './ballot_answers.mjs';
import { BallotFindings } from './ballot_findings.mjs';
import { boundedPointer, LONGEST_POINTER } from './bounded.mjs';
import { Differences } from './difference_groups.mjs';
import { excerptOf } from './excerpt.mjs';
import { foundPlaces } from './places.mjs';
import { Overview } from './overview.mjs';
import { ownTypes, typesTold, withoutTypes } from './own_view.mjs';
import { Preparing } from './preparing.mjs';
import { Side, unlessNoMemory } from './side.mjs';
import { readExactly } from '../../bindings/js/lib/exact.mjs';
import { textOfKey } from '../../bindings/js/lib/order.mjs';
import { trailOf } from './trail.mjs';
import { unprintedIn } from './unprinted.mjs';
import { shortened } from './visible.mjs';

/** The most bytes of two canonical forms whose objects are named. */
const MOST_WITH_NAMES = 80_000_000;

/** The most characters of a pointer that the page is told. */
const LONGEST_TOLD = 100_000;

/** The most differences of a list that is listed whole, and the bytes with their values from which on no more are listed: of any list, and of
 * such a list. */
const MOST_LISTED = 20_000;
const ENOUGH_AT_ONCE = 2 ** 20;
const ENOUGH_LISTED = 2 ** 25;

/** Under how many other types of identifier the files are compared. */
const MOST_TYPES = 8;

/** The most bytes of a file whose list of differences is made with the verdict: a list takes more memory than the first difference. */
const MOST_AT_ONCE = 4_000_000;

// A step of a trail, whose name and title may be longer than anybody reads.
function shortStep({ name, number, title }) {
    const short = (text) => (text === null ? null : shortened(text, LONGEST_POINTER));
    return { name: short(name), number, title: short(title) };
}

// How many objects only one file has, of these differences.
function unmatchedIn(differences) {
    return differences.filter(({ how }) => how === 'only left' || how === 'only right').length;
}

// Whether a list that was asked for is whole, or too long to be listed whole.
function isEnough(found) {
    return found === null || !found.more || found.allDifferences > MOST_LISTED;
}

/** A judgement of one file or two, under one preference. */
export class Judgement {
    /**
     * @param {import('../../bindings/js/lib/calls.mjs').Erd} erd
     * @param {Blob[]} files
     * @param {string | null} prefer
     * @param {(object | null)[]} [converted] of each file what is known of its conversion from XML
     */
    constructor(erd, files, prefer, converted = []) {
        this.erd = erd;
        this.prefer = prefer;
        this.sides = files.map((file, index) => new Side(file, index, converted[index] ?? null));
    }

    /** Reads and judges each file, and compares two that are accepted. `tell` is told what is done now. */
    async verdict(tell) {
        for (const side of this.sides) {
            await side.open(tell);
        }
        let compared = this.judged(tell);
        const haveForms = await Promise.all(this.sides.map((side) => side.takeForm(tell)));
        if (haveForms.includes(true)) {
            this.sides.filter(({ isJson }) => isJson).forEach((side) => Object.assign(side, { outcome: null, checked: null }));
            compared = this.judged(tell);
        }
        return { files: this.sides.map((side) => side.told()), comparison: this.comparison(compared) };
    }

    // Judges each file that can be read, and returns the comparison of two.
    judged(tell) {
        const readable = this.sides.filter((side) => side.outcome === null);
        const compared = readable.length === 2 ? this.compared(tell) : null;
        for (const side of this.sides.filter(({ outcome }) => outcome === null)) {
            side.judge(this.erd, this.prefer, tell);
        }
        return compared;
    }

    // Compares both files. A refused file gets its outcome from the comparison, and both do if they are accepted.
    compared(tell) {
        tell({ stage: 'comparing' });
        const [left, right] = this.sides;
        const compared = this.comparedAtOnce() ?? unlessNoMemory(() => this.erd.compare(left.bytes, right.bytes, { prefer: this.prefer }));
        if (compared?.side === null) {
            this.sides.forEach((side) => (side.outcome = 'accepted'));
        } else if (compared?.side === 'left') {
            left.take(compared);
        } else if (compared !== null) {
            left.outcome = 'accepted';
            right.take(compared);
        }
        return compared;
    }

    // The list of the differences of two small files that are accepted says too whether there is one, so they are compared once. Null
    // where it does not: for other files, and where there is no memory for the list.
    comparedAtOnce() {
        const isSmall = this.sides.every(({ bytes }) => bytes.length <= MOST_AT_ONCE);
        const found = isSmall ? this.differencesUpTo(ENOUGH_AT_ONCE) : null;
        if (found === null || found.side !== null) {
            return null;
        }
        this.keptProved = isEnough(found) ? found : undefined;
        return { side: null, same: found.same, difference: found.differences[0] };
    }

    comparison(compared) {
        if (this.sides.length < 2 || this.sides.some(({ outcome }) => outcome !== 'accepted')) {
            return null;
        }
        if (compared === null) {
            return { noMemory: true };
        }
        const { values: _values, selections: _selections, ...first } = compared.difference ?? {};
        return compared.same ? { same: true } : { same: false, first };
    }

    /** The sums of each file and of its canonical form, and what is known of its envelope and of its identifiers. */
    async sums(_question, tell) {
        const sums = [];
        for (const side of this.sides) {
            sums.push({ ...await side.formSums(this.erd, this.prefer, tell), ...side.facts() });
        }
        this.erd.rest();
        return sums;
    }

    /** What is known of all differences: the proved list, and what helps to read it. Null where there is no memory for the list. */
    list(_question, tell) {
        const differences = this.differencesKept(tell);
        return differences === null ? null : differences.told(differences.hasWords ? unlessNoMemory(() => this.ballots(tell).seen()) : null);
    }

    /** How many differences there are, and the first of them without the names of objects, as soon as the proved code has them; null where
     * there is no memory for the list. */
    begun({ most }, tell) {
        const proved = this.proved(tell);
        return proved === null ? null : { count: proved.allDifferences,
            entries: new Differences(proved.differences.slice(0, most), proved.allDifferences).some({ from: 0, count: most }) };
    }

    // The proved list, or its beginning.
    proved(tell) {
        if (this.keptProved === undefined) {
            tell({ stage: 'listing' });
            const found = this.differencesUpTo(ENOUGH_AT_ONCE);
            this.keptProved = isEnough(found) ? found : this.differencesUpTo(ENOUGH_LISTED);
        }
        return this.keptProved;
    }

    // The differences, which a worker that has begun anew lists again.
    differencesKept(tell) {
        if (this.differences === undefined) {
            const found = this.proved(tell);
            this.differences = found === null ? null : this.differencesOf(found, tell);
        }
        return this.differences;
    }

    differencesOf({ differences, allDifferences }, tell) {
        const forms = this.sides.map((side) => side.canonical(this.erd, this.prefer, tell));
        const isNamed = !forms.includes(null) && forms[0].length + forms[1].length <= MOST_WITH_NAMES;
        const words = isNamed ? unlessNoMemory(() => this.words(tell)) : null;
        return new Differences(differences, allDifferences, (key) => this.belowOf(key), words && words.map(({ called }) => called));
    }

    // The proved list with its values, or its beginning; null if there is no memory for it.
    differencesUpTo(enoughBytes) {
        const [left, right] = this.sides;
        return unlessNoMemory(() => this.erd.differencesUpTo(enoughBytes, left.bytes, right.bytes, { prefer: this.prefer, mostDifferences: MOST_LISTED }));
    }

    // The lines of the proved code that say what differs on the ballot of a style; null if there is no memory for them.
    belowOf(key) {
        const differing = unlessNoMemory(() => this.differingBallots());
        this.keptBelow ??= differing && new Map(differing.map((style) => [textOfKey(style.key), style.below]));
        return differing && (this.keptBelow.get(textOfKey(key)) ?? '');
    }

    // How many objects of one file the other one has not under a type; null where the files are not accepted under it.
    unmatched(prefer) {
        const [left, right] = this.sides;
        let count = 0;
        for (const { side, differences } of this.erd.differencesByPieces(left.bytes, right.bytes, { prefer })) {
            if (side !== null) {
                return null;
            }
            count += unmatchedIn(differences);
        }
        return count;
    }

    /** Some of the differences, as what the page shows. */
    more(question, tell) {
        return this.differencesKept(tell).some(question);
    }

    /** The type of identifier under which the fewest objects stay unmatched, if they are fewer than now; null if there is none. */
    betterType({ types }, tell) {
        const { entries, all, hasWords } = this.differencesKept(tell);
        const isWhole = entries.length === all;
        const others = types.filter((type) => type !== this.prefer).slice(0, MOST_TYPES);
        if (!hasWords || others.length === 0 || (isWhole && unmatchedIn(entries) === 0)) {
            return null;
        }
        tell({ stage: 'types' });
        const under = (type) => unlessNoMemory(() => this.unmatched(type));
        const count = isWhole ? unmatchedIn(entries) : under(this.prefer);
        const better = others.map((type) => ({ type, fewer: under(type), count })).filter(({ fewer }) => fewer !== null && fewer < count);
        return better.sort((one, other) => one.fewer - other.fewer)[0] ?? null;
    }

    /** The types of identifier that only one file has, of each file; null where the files are too large for that. */
    ownTypes(_question, tell) {
        if (!this.differencesKept(tell)?.hasWords) {
            return null;
        }
        this.keptTypes ??= ownTypes(this.sides.map((side) => side.canonical(this.erd, this.prefer, tell)));
        return typesTold(this.keptTypes);
    }

    /** What the proved code says of copies without the identifiers of these types: null where it does not accept them. */
    ownView(question, tell) {
        const types = this.ownTypes(question, tell);
        const copies = this.sides.map((side, index) => withoutTypes(side.canonical(this.erd, this.prefer, tell), this.keptTypes[index]));
        tell({ stage: 'comparing' });
        const { side, allDifferences } = this.erd.differences(...copies, { prefer: this.prefer, mostDifferences: 1 });
        return { types, count: side === null ? allDifferences : null };
    }

    // The words of each report.
    words(tell) {
        this.keptWords ??= this.sides.map((side) => side.words(this.erd, this.prefer, tell));
        return this.keptWords;
    }

    // What the ballots look like: what the proved code answers on them, with the words that it lists.
    ballots(tell) {
        this.keptBallots ??= new BallotAnswers(this.words(tell), this.differingBallots(), (...question) => this.toldOfBallots(...question));
        return this.keptBallots;
    }

    toldOfBallots(call, sides, ...positions) {
        return this.erd.toldOfBallots(call, sides.map((side) => this.sides[side].bytes), { prefer: this.prefer }, ...positions);
    }

    // Which ballots differ, by the proved code.
    differingBallots() {
        const { prefer } = this;
        this.keptDiffering ??= this.sides.length < 2 ? [] : this.erd.toldOfBallots('erd_ballot_differences', this.sides.map(({ bytes }) => bytes), { prefer });
        return this.keptDiffering;
    }

    /** What a file has, in counts. */
    overview(_question, tell) {
        return this.keptOverview(tell).told();
    }

    /** Some precincts of a file, with their ballot styles. */
    precincts(question, tell) {
        return this.keptOverview(tell).precincts(question);
    }

    keptOverview(tell) {
        this.overviewOfFile ??= new Overview(this.words(tell)[0], this.ballots(tell).toldHeads(0), this.unprinted(tell));
        return this.overviewOfFile;
    }

    // What the ballots of the only file leave out.
    unprinted(tell) {
        return unprintedIn(readExactly(this.canonical({ index: 0 }, tell)), this.words(tell)[0]);
    }

    /** How many things differ on the ballots. */
    onBallots(_question, tell) {
        return this.findings(tell).told();
    }

    /** Some of the things that differ on the ballots. */
    someOnBallots(question, tell) {
        return this.findings(tell).some(question);
    }

    findings(tell) {
        this.keptFindings ??= new BallotFindings(this.ballots(tell));
        return this.keptFindings;
    }

    /** The languages of the ballots. */
    languages(_question, tell) {
        return this.ballots(tell).languages();
    }

    /** Some of the ballot styles. */
    styles(question, tell) {
        return this.ballots(tell).styles(question);
    }

    /** One ballot. */
    ballot(question, tell) {
        return this.ballots(tell).ballot(question);
    }

    /** The kinds of the faults of a side, with their counts, and how many faults these have together. */
    kinds({ index }) {
        const side = this.sides[index];
        const kinds = side.kinds.map(({ reason, faults, names }) => ({ reason, count: faults.length, names }));
        return { kinds, told: side.checked.faults.length };
    }

    /** Some of the faults of one kind, as what the page shows. */
    places({ index, reason, from, count }) {
        const side = this.sides[index];
        const faults = side.kinds.find((kind) => kind.reason === reason).faults.slice(from, from + count);
        const found = foundPlaces(side.bytes, faults.map((fault) => fault.place));
        return faults.map((fault, at) => this.place(side, fault, found[at]));
    }

    place(side, fault, found) {
        const trail = trailOf(found, fault.place).map(shortStep);
        const { start, end } = found === null ? { start: 0, end: 0 } : found.range;
        const { reason, name } = fault;
        return { reason, ...(name === undefined ? {} : { name }), pointer: boundedPointer(fault.place, LONGEST_TOLD), trail, start, end,
            excerpt: found === null ? null : excerptOf(side.lines, start, end) };
    }

    /** What steps do to a copy of a side; null if it is not JSON. */
    preparation({ index, steps }, tell) {
        return this.preparing(index).told(steps, tell);
    }

    /** The copy on which these steps were done. */
    preparedCopy({ index, steps }, tell) {
        const { file, converted } = this.sides[index];
        return this.preparing(index).copied(steps, { name: file.name, converted: converted?.form === undefined ? null : converted }, tell);
    }

    /** Each change of these steps, as JSON. */
    preparedChanges({ index, steps }, tell) {
        return this.preparing(index).changes(steps, tell);
    }

    preparing(index) {
        const side = this.sides[index];
        side.preparing ??= new Preparing(side.bytes, this.erd);
        return side.preparing;
    }

    /** The canonical form of a side. */
    canonical({ index }, tell) {
        return this.sides[index].canonical(this.erd, this.prefer, tell);
    }

    /** The lines that the program writes for a side, as bytes in pieces. */
    lines({ index }) {
        return [...this.erd.written('check', [this.sides[index].bytes], { prefer: this.prefer })].map(({ bytes }) => bytes);
    }

    /** The first of these lines. */
    firstLines({ index, count }) {
        return this.sides[index].checked.faults.slice(0, count).map(({ line }) => line);
    }

    /** The bytes of a part of a file. */
    part({ index, start, end }) {
        return this.sides[index].bytes.slice(start, end);
    }
}
