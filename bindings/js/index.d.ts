/** A report: its bytes, or its text. */
export type Report = Uint8Array | ArrayBuffer | string;

export interface Preference {
    /** The type of identifier that the keys of objects follow, such as `fips` or `local-level`. */
    prefer?: string | null;
}

export interface Options extends Preference {
    /**
     * The most faults that are listed: 1,000 if it is left out, and all if it is null. They are fewer if their texts together have
     * more than a megabyte, since the list of all faults can grow with the square of the report's size.
     */
    mostFaults?: number | null;
}

export interface DifferencesOptions extends Preference {
    /** The most differences that are listed, or the most faults of a refused report, as `mostFaults` says for faults. */
    mostDifferences?: number | null;
}

export interface WordsOptions extends Preference {
    /** The most entries that are listed, or the most faults of a refused report, as `mostFaults` says for faults. */
    mostEntries?: number | null;
}

/** One fault of a report. */
export interface Fault {
    /** The way from the root of the report: names of members, and positions in arrays, counted from 0. */
    place: (string | number)[];
    /** The place as a JSON Pointer (RFC 6901). */
    pointer: string;
    /** The number of the reason. docs/PROFILE.md lists the reasons. */
    reason: number;
    /** The name of the missing member. Only reason 2 has it. */
    name?: string;
    /** What is wrong, in the words of the program. */
    words: string;
    /** The line that the program writes for the fault, without its line feed. */
    line: string;
}

/** The `Type`, the `OtherType` and the `Value` of an identifier. */
export type Key = [string, string, string];

/** A JSON value. A whole number that a number of JavaScript can't hold is a bigint. */
export type Json = null | boolean | number | bigint | string | Json[] | { [name: string]: Json };

/** A difference of two reports. */
export interface Difference {
    part: 'report' | 'unit' | 'party' | 'person' | 'office' | 'header' | 'election' | 'candidate' | 'contest' | 'style';
    /** The identifier that is the key; null if the object has no key. */
    key: Key | null;
    how: 'only left' | 'only right' | 'other class' | 'member';
    /** The member in which the two differ. Only `member` has it. */
    member?: string;
    /**
     * What differs inside the selections of a contest, in rising order of names and then of members, if the member is
     * `ContestSelection`. Only `differences` tells it. It is left out too where the names of selections and of what differs,
     * from the first difference of the list on, have more than a megabyte together. If all differences are asked for, this holds
     * for as much of the list as is kept at a time: at least 4 megabytes.
     */
    selections?: SelectionDifference[];
    /**
     * What either report has there: the value of the member; or the record of the object, with its `class`, the key of its `election`
     * and its `members`. Keys stand in place of references. A report that has nothing there is left out. Only `differences` tells
     * it, and not of the content of ballots. What contests have at their selections is in `selections`.
     */
    values?: { left?: Json; right?: Json };
    /** The line that the program writes for the difference, without its line feed. */
    line: string;
}

/** A difference of the selections of two contests. */
export interface SelectionDifference {
    name: SelectionName;
    how: 'only left' | 'only right' | 'member';
    /** The member in which the two selections with this name differ. Only `member` has it. */
    member?: string;
    /**
     * What either contest has there: the value of the member; or the record of the selection, with its `class` and its `members`. Keys
     * stand in place of references. A contest that has nothing there is left out. It is null from the first selection of a contest on
     * where the values have more than a megabyte together, or more than is kept at a time if all differences are asked for.
     */
    values: { left?: Json; right?: Json } | null;
}

/**
 * What tells a selection from the others of its contest: docs/PROFILE.md, "Names of selections". A part that the name has not is
 * null. An order that a number of JavaScript can't hold is a bigint.
 */
export type SelectionName = [type: string, keys: Key[], isWriteIn: boolean, sequenceOrder: number | bigint | null, label: string | null,
    identifier: Key | null];

/** The result of `check`. */
export class Checked {
    readonly outcome: 'accepted' | 'refused' | 'not JSON';
    /** The exit status of `erd check`: 0 if accepted, 1 if refused, 2 if the bytes are not JSON. */
    readonly status: 0 | 1 | 2;
    readonly accepted: boolean;
    /** The faults in the order of the program, from the first one on. Empty if the report is accepted or is not JSON. */
    readonly faults: Fault[];
    /** How many faults the report has. */
    readonly allFaults: number;
    /** Whether it has more faults than are listed. */
    readonly more: boolean;
    /** What `erd check` writes, as far as the faults are listed. */
    get text(): string;
}

/** The result of `canonical`. */
export class Canonical extends Checked {
    /** The canonical form in UTF-8; null if the report is refused. */
    readonly bytes: Uint8Array | null;
    /** The canonical form, with no line end; of a refused report what `erd check` writes. */
    get text(): string;
}

/** The result of `compare`. */
export class Compared {
    readonly outcome: 'same' | 'different' | 'refused' | 'not JSON';
    /** The exit status of `erd compare`: 0 if same, 2 if a report is not JSON, otherwise 1. */
    readonly status: 0 | 1 | 2;
    readonly same: boolean;
    /** The first difference, if the outcome is `different`. */
    readonly difference: Difference | null;
    /** Which report is refused, if one is. The right one is judged only if the left one is accepted. */
    readonly side: 'left' | 'right' | null;
    /** The faults of the refused report, from the first one on. */
    readonly faults: Fault[];
    /** How many faults the refused report has. */
    readonly allFaults: number;
    /** Whether it has more faults than are listed. */
    readonly more: boolean;
    /** What `erd compare` writes, as far as the faults are listed. */
    get text(): string;
}

/** The result of `differences`. */
export class Differences {
    readonly outcome: 'same' | 'different' | 'refused' | 'not JSON';
    /** The exit status of `erd compare`: 0 if same, 2 if a report is not JSON, otherwise 1. */
    readonly status: 0 | 1 | 2;
    readonly same: boolean;
    /** The differences in rising order by part, key and member, from the first one on. */
    readonly differences: Difference[];
    /** How many differences the reports have. */
    readonly allDifferences: number;
    /** Which report is refused, if one is. The right one is judged only if the left one is accepted. */
    readonly side: 'left' | 'right' | null;
    /** The faults of the refused report, from the first one on. */
    readonly faults: Fault[];
    /** How many faults the refused report has. */
    readonly allFaults: number;
    /** Whether there are more differences, or more faults, than are listed. */
    readonly more: boolean;
    /** `same`, or the line of each difference that is listed; of a refused report what `erd compare` writes. */
    get text(): string;
}

/** A ballot of a report. */
export interface BallotHead {
    /** The position of its style among those of the report, counted from 0: what `ballot` takes. */
    readonly position: number;
    readonly key: Key | null;
    /** How many headers and contests it has. */
    readonly allLines: number;
    /** The keys of the parties, and of the units, whose voters get it. */
    readonly parties: Key[];
    readonly units: Key[];
    /** What `erd ballots` writes of it, without the line feed. */
    readonly line: string;
}

/** The ballots of a report, or why it has none. */
export class Ballots extends Checked {
    readonly ballots: BallotHead[];
}

/** A line of a ballot: a header or a contest. */
export interface BallotLine {
    readonly what: 'header' | 'contest';
    readonly key: Key | null;
    /** How many headers stand around it. */
    readonly depth: number;
    /** Whether the ballot lists selections for it. If it lists none, `selections` has those of the contest in rising order. */
    readonly isListed: boolean;
    readonly selections: SelectionName[];
}

/** One ballot of a report; `ballot` is null if the report is refused, or has no style at the position. */
export class OneBallot extends Checked {
    readonly ballot: {
        /** The key of the Election that holds its style; null if that has none. */
        readonly election: Key | null;
        readonly key: Key | null;
        readonly lines: BallotLine[];
        readonly parties: Key[];
        readonly units: Key[];
    } | null;
}

/** Which ballots are not the same in two reports. */
export class BallotDifferences extends Compared {
    readonly differences: {
        readonly key: Key | null;
        /** The positions of the style in the two reports; null where a report has none. */
        readonly left: number | null;
        readonly right: number | null;
        readonly how: 'only left' | 'only right' | 'differs';
        readonly line: string;
        /** What differs on the ballots of the style: the lines that `erd ballots` writes below its own, without their line feeds. */
        readonly below: readonly string[];
    }[];
}

/** What became of a line, or of a selection. One that moved has a row where each ballot has it. */
export type RowKind = 'both' | 'removed' | 'added' | 'moved away' | 'moved here';

/** Two ballots beside each other. Each line of either stands in the rows once, in its order. */
export class BallotsBeside extends Checked {
    /** Which report is refused, if one is. The right one is judged only if the left one is accepted. */
    readonly side: 'left' | 'right' | null;
    /** Null if a report is refused, or has no style at its position. */
    readonly ballots: {
        readonly left: BallotLine[];
        readonly right: BallotLine[];
        readonly rows: {
            readonly how: RowKind;
            /** The positions of the line in the two ballots; null where a ballot has none. */
            readonly left: number | null;
            readonly right: number | null;
            /** The rows of the selections of a contest of both, by their names. Ballots that list none tell no moves. */
            readonly selections: { readonly how: RowKind; readonly name: SelectionName }[];
        }[];
    } | null;
}

/** What ballots print of one object. Keys stand in place of references. */
export interface ObjectWords {
    readonly part: 'unit' | 'party' | 'person' | 'office' | 'header' | 'election' | 'candidate' | 'contest';
    /** The key of the object; null for a sole election without external identifiers. */
    readonly key: Key | null;
    /** The `@type` of the object. */
    readonly class: string;
    /** Its members that ballots print, or may print: docs/PROFILE.md, "What a voter sees". */
    readonly words: { readonly [name: string]: Json };
    /** The selections of a contest, in the rising order of their names. Other objects have none. */
    readonly selections?: readonly { readonly name: SelectionName; readonly words: { readonly [name: string]: Json } }[];
}

/** What ballots print of the objects of a report, or why nothing is listed. */
export class WordList extends Checked {
    /** One for each object: part by part, and by rising keys. */
    readonly entries: ObjectWords[];
    /** How many objects there are. */
    readonly allEntries: number;
    /** Whether there are more entries, or more faults, than are listed. */
    readonly more: boolean;
}

/** A command, by what it does. */
export type Command = 'check' | 'canon' | 'compare' | 'differences';

/** The calls. Each throws a `TypeError` if an argument is wrong, and a `TrapError` if the module stops. */
export class Erd {
    constructor(module: WebAssembly.Module);
    /**
     * Checks a report, as `erd check` does.
     * @throws {TooLongError} if the report has more than 67,108,864 bytes
     * @throws {NoMemoryError} if the call ran out of memory
     */
    check(report: Report, options?: Options): Checked;
    /**
     * Canonicalises a report, as `erd canon` does.
     * @throws {TooLongError} if the report has more than 67,108,864 bytes
     * @throws {NoMemoryError} if the call ran out of memory
     */
    canonical(report: Report, options?: Options): Canonical;
    /**
     * Compares two reports, as `erd compare` does.
     * @throws {TooLongError} if a report has more than 67,108,864 bytes
     * @throws {NoMemoryError} if the call ran out of memory
     */
    compare(left: Report, right: Report, options?: Options): Compared;
    /**
     * Lists all differences of two reports.
     * @throws {TooLongError} if a report has more than 67,108,864 bytes
     * @throws {NoMemoryError} if the call ran out of memory
     */
    differences(left: Report, right: Report, options?: DifferencesOptions): Differences;
    /**
     * The results of checking a report, piece by piece, so that no list of faults is in memory as a whole: each has the next faults. A
     * report that is accepted, or is not JSON, has one.
     */
    checkedByPieces(report: Report, options?: Preference): Generator<Checked>;
    /**
     * What a command writes, piece by piece: the exit status of the command, and the next bytes that it writes. No list of faults is
     * in memory as a whole.
     */
    written(command: Command, reports: Report[], options?: Preference): Generator<{ status: number; bytes: Uint8Array }>;
    /**
     * The same, with what `take` returns in place of the bytes. The bytes that `take` is handed stand in the memory of the module;
     * they are others when it has returned. So a caller that only hands them on needs no copy.
     */
    written<T>(command: Command, reports: Report[], options: Preference | undefined, take: (bytes: Uint8Array, status: number) => T):
        Generator<{ status: number; bytes: T }>;
    /** What `check`, `compare` or `differences` answers as JSON: the exit status, and what `take` returns of the bytes of the text. */
    writtenAsJson<T>(command: 'check' | 'compare' | 'differences' | 'ballots', reports: Report[], options: Preference | undefined,
        take: (bytes: Uint8Array, status: number) => T): { status: number; bytes: T };
    /**
     * Lists the ballots of a report, in the rising order of the keys of their styles.
     * @throws {TooLongError} if the report has more than 67,108,864 bytes
     * @throws {NoMemoryError} if the call ran out of memory
     */
    ballots(report: Report, options?: Options): Ballots;
    /** Tells the ballot of the style at a position of a report, as `ballots` tells it. It throws as `ballots` does. */
    ballot(report: Report, position: number, options?: Options): OneBallot;
    /**
     * Lists what ballots print of the objects of a report, each object once. `ballot` tells a ballot by the keys and names of these
     * entries. It throws as `ballots` does.
     */
    words(report: Report, options?: WordsOptions): WordList;
    /**
     * Tells which ballots are not the same in two reports: in their lines, their voters, or the words of contests, headers,
     * selections, candidates, persons, parties and units. `differences` tells what differs. It throws as `ballots` does.
     */
    ballotDifferences(left: Report, right: Report, options?: Options): BallotDifferences;
    /**
     * Tells two ballots beside each other: those of the styles at these positions, as `ballotDifferences` tells them. It throws as
     * `ballots` does.
     */
    ballotsBeside(left: Report, right: Report, leftPosition: number, rightPosition: number, options?: Options): BallotsBeside;
    /**
     * What steps make of a report: what they did, as `erd_prepare` of the C library tells it in JSON, and the bytes of the copy; null if
     * the report is not JSON. `Preparation` of `erd/prepare` reads it.
     * @param names of steps or of groups, with commas between them
     * @throws {RangeError} for a name that no step and no group has
     */
    prepared(report: Report, names: string, options?: { tellsOthers?: boolean }): { told: Uint8Array; bytes: Uint8Array } | null;
    /**
     * What the words of a command line ask for, as the program parses them. Help and wrong words have the exit status of the program,
     * and the bytes that it writes.
     */
    commandLine(words: string[]): { request: CommandRequest } | { request?: undefined; status: 0 | 3; bytes: Uint8Array };
}

/** What the words of a command line ask for. */
export interface CommandRequest {
    readonly command: 'filter' | 'check' | 'canon' | 'compare' | 'differences' | 'ballots' | 'prepare';
    /** The names of the files, in the order of the words. */
    readonly files: string[];
    /** Whether the answer is to be JSON. */
    readonly json: boolean;
    readonly prefer: string | null;
    /** Of `prepare`: whether the steps that would do something are listed. */
    readonly list?: boolean;
    /** Of `prepare`: whether what the steps do is told in JSON. */
    readonly report?: boolean;
    /** Of `prepare`: the names of the steps; null where no word names them. */
    readonly steps?: string | null;
}

/** Loads the proved code: `erd.wasm` beside this file, or the module that is handed in. */
export function load(source?: Uint8Array | ArrayBuffer | WebAssembly.Module): Promise<Erd>;

/** A name that is written more than once in one object. */
export interface RepeatedName {
    /** The way from the root of the report to the member. */
    place: (string | number)[];
    /** The place as a JSON Pointer (RFC 6901). */
    pointer: string;
    /** How often the name is written in its object. */
    times: number;
}

/** The names that are listed, and how many there are. */
export interface RepeatedNames extends Array<RepeatedName> {
    readonly allNames: number;
    /** Whether there are more names than are listed. */
    readonly more: boolean;
}

/**
 * The names that are written more than once in one object, in the order in which their objects end. `erd` reads the last value of
 * such a name; another program may read the first. This list is not part of what is proved.
 * @param options `most`: how many are listed, and fewer if their places together have more than a megabyte; 1,000 if it is left out,
 * and all if it is null
 * @throws {SyntaxError} if the report is not JSON
 */
export function repeatedNames(report: Report, options?: { most?: number | null }): RepeatedNames;

/** How many faults, or differences, are listed if the options name no other number: 1,000. */
export const MOST_LISTED: number;

/** The most bytes that a report may have: 67,108,864. */
export const MOST_BYTES: number;

/** A report has more bytes than a call takes. */
export class TooLongError extends RangeError {
    readonly code: 'TOO_LONG';
}

/** A call ran out of memory. The next call begins with fresh memory. */
export class NoMemoryError extends Error {
    readonly code: 'NO_MEMORY';
}

/** The module stopped in the middle of a call, which the proved code never does: the engine, or the module, is broken. */
export class TrapError extends Error {
    readonly code: 'TRAP';
}
