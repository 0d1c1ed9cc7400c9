// The calls, on top of the module.
import { wordsOf } from './ballot_words.mjs';
import { BallotDifferences, Ballots, BallotsBeside, OneBallot } from './ballots.mjs';
import { Engine, LINE, OUTCOME } from './engine.mjs';
import { readExactly } from './exact.mjs';
import { checkedOf, comparedOf, differencesOf, withCanonical, withoutCanonical } from './results.mjs';

/** How many faults, or differences, are listed if the caller names no other number. */
export const MOST_LISTED = 1000;

// No further entry of a list begins once those before it have so many bytes: a list of faults can be as long as the square of its
// report, so a call asks for one piece after another.
const BYTES_OF_PIECE = 2 ** 20;

// More entries than any list has that fits into the memory of the module.
const ALL = 2 ** 32 - 1;

/** The most bytes that a report may have. */
export const MOST_BYTES = 67108864;

/** A report has more bytes than a call takes. */
export class TooLongError extends RangeError {
    constructor() {
        super(`too long: a report may have at most ${MOST_BYTES} bytes`);
        this.name = 'TooLongError';
        this.code = 'TOO_LONG';
    }
}

/** A call ran out of memory. The next call begins with fresh memory. */
export class NoMemoryError extends Error {
    constructor() {
        super('no memory: the call ran out of memory');
        this.name = 'NoMemoryError';
        this.code = 'NO_MEMORY';
    }
}

/** The calls. `load` makes one of these. */
export class Erd {
    #engine;

    /**
     * @param {WebAssembly.Module} module what `erd.wasm` is compiled to
     * @param {number} [bytesKept] how much memory is kept from one call to the next, until `rest` gives it back
     */
    constructor(module, bytesKept) {
        this.#engine = new Engine(module, bytesKept);
    }

    /** Gives back the memory that is kept for the next call. */
    rest() {
        this.#engine.rest();
    }

    /** Checks a report, as `erd check` does. */
    check(report, options) {
        const asked = askedFor(options, 'mostFaults');
        const { taken, all } = this.#list('erd_check_data_piece', [bytesOf(report, 'the report')], asked);
        return checkedOf(taken, all);
    }

    /** Canonicalises a report, as `erd canon` does. */
    canonical(report, options) {
        const asked = askedFor(options, 'mostFaults');
        const { outcome, taken, all } = this.#list('erd_canonical_data_piece', [bytesOf(report, 'the report')], asked);
        return outcome === OUTCOME.good ? withCanonical(taken) : withoutCanonical(taken, all);
    }

    /** Compares two reports, as `erd compare` does. */
    compare(left, right, options) {
        const asked = askedFor(options, 'mostFaults');
        const { taken, all } = this.#list('erd_compare_data_piece', pairOf(left, right), asked);
        return comparedOf(taken, all);
    }

    /** Lists the differences of two reports. */
    differences(left, right, options) {
        const asked = askedFor(options, 'mostDifferences');
        const { taken, all } = this.#list('erd_differences_values', pairOf(left, right), asked);
        return differencesOf(taken, all);
    }

    /** Lists the differences of two reports, but none once those before it have so many bytes with their values. */
    differencesUpTo(enoughBytes, left, right, options) {
        const { prefer, most } = askedFor(options, 'mostDifferences');
        const reports = pairOf(left, right);
        checkLengths(reports);
        const piece = { first: 0, most: most ?? ALL, enoughBytes };
        const { taken, all } = checked(this.#engine.call('erd_differences_values', reports, prefer, piece, readExactly));
        return differencesOf(taken, all);
    }

    /** Lists the ballots of a report, in the rising order of the keys of their styles. */
    ballots(report, options) {
        const bytes = bytesOf(report, 'the report');
        const checked = this.check(bytes, options);
        return new Ballots(checked, checked.accepted ? this.toldOfBallots('erd_ballots', [bytes], options) : null);
    }

    /** Tells the ballot of the style at a position of a report, as `ballots` tells it. */
    ballot(report, position, options) {
        checkPosition(position);
        const bytes = bytesOf(report, 'the report');
        const checked = this.check(bytes, options);
        return new OneBallot(checked, checked.accepted ? this.toldOfBallots('erd_ballot', [bytes], options, position) : null);
    }

    /** Lists what ballots print of the objects of a report, each object once. */
    words(report, options) {
        const asked = askedFor(options, 'mostEntries');
        const { outcome, taken, all } = this.#list('erd_words', [bytesOf(report, 'the report')], asked);
        return wordsOf(outcome === OUTCOME.good, taken, all);
    }

    /** Tells which ballots are not the same in two reports. */
    ballotDifferences(left, right, options) {
        const reports = pairOf(left, right);
        const { side, found } = this.#checkedPair(reports, options);
        return new BallotDifferences(side, found, side === null ? this.toldOfBallots('erd_ballot_differences', reports, options) : []);
    }

    /** Tells the ballots of the styles at a position of each report beside each other, as `ballotDifferences` tells the positions. */
    ballotsBeside(left, right, leftPosition, rightPosition, options) {
        [leftPosition, rightPosition].forEach(checkPosition);
        const reports = pairOf(left, right);
        const { side, found } = this.#checkedPair(reports, options);
        const told = side === null ? this.toldOfBallots('erd_ballots_beside', reports, options, leftPosition, rightPosition) : null;
        return new BallotsBeside(side, found, told);
    }

    // How the first of two reports that is refused is judged, and which it is; or else how the right one is.
    #checkedPair([left, right], options) {
        const found = this.check(left, options);
        if (!found.accepted) {
            return { side: 'left', found };
        }
        const other = this.check(right, options);
        return { side: other.accepted ? null : 'right', found: other };
    }

    /**
     * What a call answers on the ballots of reports that are accepted, which it does not check: the faults of a refused one would be in
     * memory as a whole.
     * @param {string} name the call, such as `erd_ballots`
     * @param {Uint8Array[]} reports
     * @param {...number} more the numbers that follow the preference
     */
    toldOfBallots(name, reports, options, ...more) {
        return checked(this.#engine.ask(name, reports, askedFor(options, 'mostFaults').prefer, more, readExactly)).taken;
    }

    /**
     * What steps make of a report: what they did, as the library tells it in JSON, and the bytes of the copy; null if the report is not
     * JSON. `erd/prepare` reads it.
     * @param {string} names of steps or of groups, with commas between them
     * @param {{tellsOthers?: boolean}} [options] whether it is told too what the other steps would do
     * @throws {RangeError} for a name that no step and no group has
     */
    prepared(report, names, { tellsOthers = false } = {}) {
        const bytes = bytesOf(report, 'the report');
        checkLengths([bytes]);
        const { outcome, taken } = checked(this.#engine.prepare(bytes, encoded(names, 'a name'), tellsOthers, toldAndCopy));
        if (outcome === OUTCOME.wrong || names.includes('\0')) {
            throw new RangeError('unknown step');
        }
        return taken ?? null;
    }

    /**
     * What the words of a command line ask for, as the program parses them: `request` for a command, or else the `status` with
     * which the program ends, and the bytes of the text that it writes.
     * @param {string[]} words without the name of the program
     */
    commandLine(words) {
        if (words.some((word) => word.includes('\0'))) {
            throw new TypeError('a word has a zero character');
        }
        const { line, bytes } = this.#engine.commandLine(encoded(['erd', ...words, ''].join('\0'), 'a word'));
        if (line === LINE.noMemory) {
            throw new NoMemoryError();
        }
        return line === LINE.request ? { request: JSON.parse(new TextDecoder().decode(bytes)) } : { status: line, bytes };
    }

    /**
     * What a command writes, piece by piece, so that no list is in memory as a whole: for each piece the exit status and what `take`
     * makes of the bytes, which stand in the memory of the module until `take` returns. Without `take` it is a copy of them.
     * @param {'check' | 'canon' | 'compare' | 'differences'} command
     */
    *written(command, reports, options, take = copied) {
        const { prefer } = askedFor(options, 'mostFaults');
        const bytesOfReports = reports.map((report) => bytesOf(report, 'a report'));
        for (const { outcome, taken } of this.#pieces(COMMANDS[command], bytesOfReports, prefer, take)) {
            yield { status: outcome, bytes: taken };
        }
    }

    /**
     * The results of checking a report, piece by piece, so that no list is in memory as a whole: each has the next faults. A report that
     * is accepted, or is not JSON, has one.
     */
    *checkedByPieces(report, options) {
        const { prefer } = askedFor(options, 'mostFaults');
        for (const { taken, all } of this.#pieces('erd_check_data_piece', [bytesOf(report, 'the report')], prefer, readExactly)) {
            yield checkedOf(taken, all);
        }
    }

    /** The differences of two reports without their values, piece by piece, as `checkedByPieces` has faults. */
    *differencesByPieces(left, right, options) {
        const { prefer } = askedFor(options, 'mostDifferences');
        for (const { taken, all } of this.#pieces('erd_differences_data', pairOf(left, right), prefer, readExactly)) {
            yield differencesOf(taken, all);
        }
    }

    /** What ballots print of the objects of an accepted report, piece by piece: the entries of each, and how many bytes they have. */
    *wordsByPieces(report, options) {
        const { prefer } = askedFor(options, 'mostEntries');
        const take = (bytes) => ({ entries: readExactly(bytes), size: bytes.length });
        for (const { taken } of this.#pieces('erd_words', [bytesOf(report, 'the report')], prefer, take)) {
            yield taken;
        }
    }

    /**
     * What a command answers as JSON: the exit status, and what `take` makes of the bytes of the whole text, as in `written`.
     * @param {'check' | 'compare' | 'differences' | 'ballots'} command
     */
    writtenAsJson(command, reports, options, take = copied) {
        const { prefer } = askedFor(options, 'mostFaults');
        const bytesOfReports = reports.map((report) => bytesOf(report, 'a report'));
        checkLengths(bytesOfReports);
        const { outcome, taken } = checked(command === 'ballots'
            ? this.#engine.ask(reports.length === 1 ? 'erd_ballots' : 'erd_ballot_differences', bytesOfReports, prefer, [], take)
            : this.#engine.call(JSON_COMMANDS[command], bytesOfReports, prefer, { first: 0, most: ALL, enoughBytes: ALL }, take));
        return { status: outcome, bytes: taken };
    }

    // An answer with so many entries of its list, and how many the list has. Entries whose texts are long are fewer than that; but
    // all of them are there if the caller asked for all.
    #list(call, reports, { prefer, most }) {
        const isForm = (outcome) => call === 'erd_canonical_data_piece' && outcome === OUTCOME.good;
        const take = (bytes, outcome) => (isForm(outcome) ? copied(bytes) : readExactly(bytes));
        if (most !== null) {
            return this.#first(call, reports, prefer, most, take);
        }
        const pieces = this.#pieces(call, reports, prefer, take);
        const { value: answer } = pieces.next();
        const entries = entriesOf(answer.taken);
        for (const piece of pieces) {
            for (const entry of entriesOf(piece.taken)) {
                entries.push(entry);
            }
        }
        return answer;
    }

    // The answer with the first piece of a list. Nothing is kept of the others.
    #first(name, reports, prefer, most, take) {
        checkLengths(reports);
        return checked(this.#engine.call(name, reports, prefer, { first: 0, most, enoughBytes: BYTES_OF_PIECE }, take));
    }

    // The answers with one piece of a list after another.
    *#pieces(name, reports, prefer, take) {
        checkLengths(reports);
        for (const answer of this.#engine.pieces(name, reports, prefer, { most: ALL, enoughBytes: BYTES_OF_PIECE }, take)) {
            yield checked(answer);
        }
    }
}

function checkPosition(position) {
    if (!(Number.isInteger(position) && position >= 0 && position <= ALL)) {
        throw new TypeError('the position is not a whole number from 0 on');
    }
}

function checkLengths(reports) {
    if (reports.some((report) => report.length > MOST_BYTES)) {
        throw new TooLongError();
    }
}

function checked(answer) {
    if (answer.outcome === OUTCOME.noMemory) {
        throw new NoMemoryError();
    }
    return answer;
}

/** The call of each command. */
const COMMANDS = {
    check: 'erd_check_piece',
    canon: 'erd_canonical_piece',
    compare: 'erd_compare_piece',
    differences: 'erd_differences',
};

/** The call that answers each command with JSON. */
const JSON_COMMANDS = {
    check: 'erd_check_data_piece',
    compare: 'erd_compare_data_piece',
    differences: 'erd_differences_values',
};

function copied(bytes) {
    return bytes.slice();
}

// A line of JSON and a report, with a line feed between them.
function toldAndCopy(bytes) {
    const end = bytes.indexOf(0x0a);
    return { told: bytes.slice(0, end), bytes: bytes.slice(end + 1) };
}

// The list in an answer: of faults, or of differences.
function entriesOf(value) {
    const list = value?.faults ?? value;
    return Array.isArray(list) ? list : [];
}

function pairOf(left, right) {
    return [bytesOf(left, 'the left report'), bytesOf(right, 'the right report')];
}

/** The bytes of a report. A view of other numbers than bytes is refused, since its bytes depend on the machine. */
export function bytesOf(report, what) {
    if (report instanceof Uint8Array) {
        return report;
    }
    if (report instanceof ArrayBuffer) {
        return new Uint8Array(report);
    }
    if (typeof report === 'string') {
        return encoded(report, what);
    }
    throw new TypeError(`${what} is neither a Uint8Array, nor an ArrayBuffer, nor a text`);
}

// What the options ask for: the preferred type of identifier, and the most entries of a list, or null for all of them.
function askedFor(options, nameOfMost) {
    if (options === null || (options !== undefined && typeof options !== 'object')) {
        throw new TypeError('the options are not an object');
    }
    const { prefer, [nameOfMost]: most = MOST_LISTED, ...others } = options ?? {};
    const [unknown] = Object.keys(others);
    if (unknown !== undefined) {
        throw new TypeError(`no option has the name ${JSON.stringify(unknown)}`);
    }
    if (most !== null && !(Number.isInteger(most) && most >= 0 && most <= ALL)) {
        throw new TypeError(`${nameOfMost} is neither a whole number nor null`);
    }
    return { prefer: preferenceOf(prefer), most };
}

function preferenceOf(prefer) {
    if (prefer === undefined || prefer === null) {
        return null;
    }
    if (typeof prefer !== 'string') {
        throw new TypeError('prefer is not a text');
    }
    if (prefer.includes('\0')) {
        throw new TypeError('prefer has a zero character');
    }
    return encoded(prefer, 'prefer');
}

function encoded(text, what) {
    if (/\p{Surrogate}/u.test(text)) {
        throw new TypeError(`${what} has half a surrogate pair, so it has no form in UTF-8`);
    }
    return new TextEncoder().encode(text);
}
