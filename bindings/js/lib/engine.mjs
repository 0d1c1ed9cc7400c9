// The proved code as a WebAssembly module: how bytes go into it and a text comes out.

/** The numbers that its calls return: the exit statuses of the program. */
export const OUTCOME = { good: 0, bad: 1, notJson: 2, wrong: 3, noMemory: 4 };

/** What the words of a command line are: help and wrong words by the exit status of the program. */
export const LINE = { help: 0, request: 1, wrong: 3, noMemory: 4 };

const NO_MEMORY = { outcome: OUTCOME.noMemory, taken: undefined, told: 0, all: 0 };

// The calls for a piece of a list, in the order of `enum erd_listing` of erd.h.
const LISTINGS = ['erd_check_piece', 'erd_canonical_piece', 'erd_compare_piece', 'erd_differences', 'erd_check_data_piece',
    'erd_canonical_data_piece', 'erd_compare_data_piece', 'erd_differences_data', 'erd_differences_values', 'erd_words'];

// An open list keeps so many bytes of what was judged: some for each byte of the reports, as a judging itself takes, and never more
// than the last number. Reports are judged once for so much of a list.
const LEAST_KEPT = 2 ** 22;
const KEPT_FOR_A_BYTE = 16;
const MOST_KEPT = 2 ** 28;

// Memory of WebAssembly can't shrink. So an instance whose memory has grown beyond this is not kept, if the caller names no other number.
const BYTES_KEPT = 64 * 1024 * 1024;

/** The module trapped, which the proved code never does: the engine, or the module, is broken. */
export class TrapError extends Error {
    constructor(cause) {
        super(`trap: the module stopped: ${cause.message}`, { cause });
        this.name = 'TrapError';
        this.code = 'TRAP';
    }
}

/** A module, and an instance of it. The instance is made again after a call that took much memory, or that failed. */
export class Engine {
    #module;
    #bytesKept;
    #instance = null;

    /**
     * @param {WebAssembly.Module} module
     * @param {number} [bytesKept] an instance whose memory has grown beyond this is not kept for the next call
     */
    constructor(module, bytesKept = BYTES_KEPT) {
        this.#module = module;
        this.#bytesKept = bytesKept;
    }

    /** Gives up the instance that is kept, with its memory. */
    rest() {
        this.#instance = null;
    }

    /**
     * Makes one call.
     * @param {string} name the call, such as `erd_check`
     * @param {Uint8Array[]} reports one report or two
     * @param {Uint8Array | null} prefer the preferred type of identifier
     * @param {{first: number, most: number, enoughBytes: number}} piece which entries of a list the answer is to have
     * @param {(bytes: Uint8Array, outcome: number) => T} take is handed the text of the answer, if it has one. The bytes stand in
     * the memory of the module, and are others when `take` has returned
     * @returns {{outcome: number, taken: T | undefined, told: number, all: number}} the outcome, what `take` returned, how many
     * entries of a list the text has, and how many the list has
     * @template T
     */
    call(name, reports, prefer, piece, take) {
        return this.#once((exports) => answerOf(exports, name, reports, prefer, piece, take));
    }

    /**
     * Does steps on a report.
     * @param {Uint8Array} report
     * @param {Uint8Array} steps their names, or those of groups, with commas between them
     * @param {boolean} tellsOthers whether it is told too what the other steps would do
     * @param {(bytes: Uint8Array, outcome: number) => T} take as in `call`
     * @returns {{outcome: number, taken: T | undefined}}
     * @template T
     */
    prepare(report, steps, tellsOthers, take) {
        return this.#once((exports) => preparedOf(exports, report, steps, tellsOthers, take));
    }

    /**
     * Makes one call whose answer has no pieces.
     * @param {string} name the call, such as `erd_ballots`
     * @param {number[]} more the numbers that follow the preference
     * @returns {{outcome: number, taken: T | undefined}}
     * @template T
     */
    ask(name, reports, prefer, more, take) {
        return this.#once((exports) => askedOf(exports, name, reports, prefer, more, take));
    }

    #once(asked) {
        const instance = this.#taken();
        const answer = instance === null ? null : asked(instance.exports);
        if (answer === null) {
            return NO_MEMORY;
        }
        if (answer.outcome !== OUTCOME.noMemory && instance.exports.memory.buffer.byteLength <= this.#bytesKept) {
            this.#instance = instance;
        }
        return answer;
    }

    /**
     * Hands out one piece of a list after another. The reports are judged once, but for a list that is longer than what is kept of it.
     * The parameters are those of `call`, and so is each answer. An answer without a list is the only one.
     * @template T
     */
    *pieces(name, reports, prefer, piece, take) {
        const instance = this.#taken();
        const list = instance === null ? null : orNull(() => new OpenList(instance.exports, name, reports, prefer));
        try {
            for (let first = 0, isLast = false; !isLast;) {
                const answer = (list && orNull(() => list.next(piece, take))) ?? NO_MEMORY;
                yield answer;
                first += answer.told;
                isLast = first >= answer.all || answer.told === 0;
            }
        } finally {
            if (list !== null && orNull(() => list.close()) !== null && instance.exports.memory.buffer.byteLength <= this.#bytesKept) {
                this.#instance = instance;
            }
        }
    }

    /**
     * Parses the words of a command line, as the program does.
     * @param {Uint8Array} words the name of the program and the other words, each ended by a zero byte
     * @returns {{line: number, bytes: Uint8Array}} what the words are, by the number of `LINE`, and the text
     */
    commandLine(words) {
        const instance = this.#taken();
        const answer = instance === null ? null : lineOf(instance.exports, words);
        if (answer === null) {
            return { line: LINE.noMemory, bytes: new Uint8Array(0) };
        }
        this.#instance = instance;
        return answer;
    }

    /** The instance that is kept, or a fresh one; null if there is no memory for it. Whoever takes it says whether it is kept on. */
    #taken() {
        const instance = this.#instance ?? this.#fresh();
        this.#instance = null;
        return instance;
    }

    /** An instance, or null if there is no memory for one: the engine then throws a RangeError. */
    #fresh() {
        try {
            return new WebAssembly.Instance(this.#module, {});
        } catch (error) {
            if (error instanceof RangeError) {
                return null;
            }
            throw error;
        }
    }
}

// What a call is handed first: the reports with their lengths, and the preferred type of identifier.
function handed(room, reports, prefer) {
    const words = reports.flatMap((report) => [room.filledWith(report), report.length]);
    const preferred = prefer === null ? 0 : room.filledWith(prefer, 1);
    return [...words, preferred];
}

// Makes one call; null if there is no memory for it.
function answerOf(exports, name, reports, prefer, { first, most, enoughBytes }, take) {
    return withRoom(exports, (room) => {
        const words = handed(room, reports, prefer);
        const piece = room.filledWithNumbers(first, most, enoughBytes, 0, 0);
        const places = room.taken(8);
        const outcome = exports[name](...words, piece, places, places + 4);
        const [told, all] = new Uint32Array(exports.memory.buffer.slice(piece + 12, piece + 20));
        return { outcome, taken: takenAt(exports, places, outcome, take), told, all };
    });
}

// Makes one call whose answer has no pieces; null if there is no memory for it.
function askedOf(exports, name, reports, prefer, more, take) {
    return withRoom(exports, (room) => {
        const words = handed(room, reports, prefer);
        const places = room.taken(8);
        const outcome = exports[name](...words, ...more, places, places + 4);
        return { outcome, taken: takenAt(exports, places, outcome, take) };
    });
}

// Does steps on a report; null if there is no memory for it.
function preparedOf(exports, report, steps, tellsOthers, take) {
    return withRoom(exports, (room) => {
        const places = room.taken(8);
        const others = tellsOthers ? 1 : 0;
        const outcome = exports.erd_prepare(room.filledWith(report), report.length, room.filledWith(steps, 1), others, places, places + 4);
        return { outcome, taken: takenAt(exports, places, outcome, take) };
    });
}

// Parses the words of a command line; null if there is no memory for it.
function lineOf(exports, words) {
    return withRoom(exports, (room) => {
        const places = room.taken(8);
        const line = exports.erd_command_line(room.filledWith(words), words.length, places, places + 4);
        return { line, bytes: takenAt(exports, places, line, (bytes) => bytes.slice()) };
    });
}

// What a function gives that takes memory of the module, which is then given back; null if there is too little memory.
function withRoom(exports, called) {
    return orNull(() => {
        const room = new Room(exports);
        const answer = called(room);
        room.givenBack();
        return answer;
    });
}

// What a function gives; null if there is too little memory.
function orNull(called) {
    try {
        return called();
    } catch (error) {
        if (error instanceof RoomError || error instanceof RangeError) {
            return null;
        }
        throw error instanceof WebAssembly.RuntimeError ? new TrapError(error) : error;
    }
}

// What is taken of the text that a call has left: its place and its length stand in four bytes each. Then it is freed.
function takenAt(exports, places, outcome, take) {
    const view = new DataView(exports.memory.buffer);
    const start = view.getUint32(places, true);
    const text = new Uint8Array(exports.memory.buffer, start, view.getUint32(places + 4, true));
    const taken = start === 0 ? undefined : take(text, outcome);
    exports.erd_free(start);
    return taken;
}

/** A list that the module keeps, and hands out piece by piece. */
class OpenList {
    #exports;
    #room;
    #list;
    #piece;
    #places;

    constructor(exports, name, reports, prefer) {
        this.#exports = exports;
        this.#room = new Room(exports);
        const size = reports.reduce((sum, report) => sum + report.length, 0);
        const words = reports.flatMap((report) => [this.#room.filledWith(report), report.length]);
        const preferred = prefer === null ? 0 : this.#room.filledWith(prefer, 1);
        const kept = Math.min(Math.max(LEAST_KEPT, KEPT_FOR_A_BYTE * size), MOST_KEPT);
        this.#piece = this.#room.taken(20);
        this.#places = this.#room.taken(8);
        this.#list = exports.erd_open(LISTINGS.indexOf(name), ...words, ...(reports.length === 1 ? [0, 0] : []), preferred, kept) >>> 0;
        if (this.#list === 0) {
            throw new RoomError();
        }
    }

    /** The next piece, as `answerOf` gives an answer. */
    next({ most, enoughBytes }, take) {
        const exports = this.#exports;
        new Uint32Array(exports.memory.buffer, this.#piece, 5).set([0, most, enoughBytes, 0, 0]);
        const outcome = exports.erd_next(this.#list, this.#piece, this.#places, this.#places + 4);
        const [told, all] = new Uint32Array(exports.memory.buffer.slice(this.#piece + 12, this.#piece + 20));
        return { outcome, taken: takenAt(exports, this.#places, outcome, take), told, all };
    }

    close() {
        this.#exports.erd_close(this.#list);
        this.#room.givenBack();
        return this;
    }
}

/** The module has no memory left for what a call is handed. */
class RoomError extends Error {}

/** Memory of the module for what a call is handed. */
class Room {
    #exports;
    #places = [];

    constructor(exports) {
        this.#exports = exports;
    }

    /** Memory for so many bytes. */
    taken(size) {
        const place = this.#exports.erd_malloc(Math.max(size, 1)) >>> 0;
        if (place === 0) {
            throw new RoomError();
        }
        this.#places.push(place);
        return place;
    }

    /** Memory with these bytes, and with some zero bytes after them. */
    filledWith(bytes, zeros = 0) {
        const place = this.taken(bytes.length + zeros);
        const memory = new Uint8Array(this.#exports.memory.buffer, place, bytes.length + zeros);
        memory.set(bytes);
        memory.fill(0, bytes.length);
        return place;
    }

    /** Memory with these numbers of four bytes each. */
    filledWithNumbers(...numbers) {
        const place = this.taken(4 * numbers.length);
        const view = new DataView(this.#exports.memory.buffer);
        numbers.forEach((number, at) => view.setUint32(place + 4 * at, number, true));
        return place;
    }

    givenBack() {
        this.#places.forEach((place) => this.#exports.erd_free(place));
    }
}
