// The part of a file that a fault speaks of, with some lines around it.
import { textOf } from '../../bindings/js/lib/scanner.mjs';

const LINES_AROUND = 2;
const BYTES_AROUND = 240;
const LINES_MARKED = 16;
const BYTES_MARKED = 1600;
const LINE_FEED = 0x0a;

/** Tells the number of the line of a byte. Lines are counted once, in blocks, since there are many questions. */
export class Lines {
    static BLOCK = 1 << 16;

    constructor(bytes) {
        this.bytes = bytes;
        this.before = [0];
        for (let start = 0; start < bytes.length; start += Lines.BLOCK) {
            this.before.push(this.before.at(-1) + this.count(start, start + Lines.BLOCK));
        }
    }

    count(start, end) {
        let count = 0;
        for (let at = this.bytes.indexOf(LINE_FEED, start); at >= 0 && at < end; at = this.bytes.indexOf(LINE_FEED, at + 1)) {
            count++;
        }
        return count;
    }

    /** The number of the line, counted from 1. */
    of(at) {
        const block = Math.floor(at / Lines.BLOCK);
        return this.before[block] + this.count(block * Lines.BLOCK, at) + 1;
    }

    /** The column of a byte in its line, in characters, counted from 1. */
    column(at) {
        const start = this.bytes.lastIndexOf(LINE_FEED, at - 1) + 1;
        return at === 0 ? 1 : [...textOf(this.bytes, Math.max(start, at - (1 << 16)), at)].length + 1;
    }
}

/**
 * The part of a file from one byte to another, marked, and what stands around it.
 * @returns {{line: number, before: string, marked: string, left: number, after: string, cutBefore: boolean, cutAfter: boolean}}
 * `line` is the number of the first line, and `left` counts the bytes of the marked part that are left out
 */
export function excerptOf(lines, start, end) {
    const { bytes } = lines;
    const markedEnd = endOfMarked(bytes, start, end);
    const first = startOfContext(bytes, start);
    const left = end - markedEnd;
    const last = left > 0 ? markedEnd : endOfContext(bytes, end);
    return {
        line: lines.of(first),
        before: textOf(bytes, first, start),
        marked: textOf(bytes, start, markedEnd),
        left,
        after: textOf(bytes, markedEnd, last),
        cutBefore: first > 0 && bytes[first - 1] !== LINE_FEED,
        cutAfter: left === 0 && last < bytes.length && bytes[last] !== LINE_FEED,
    };
}

function endOfMarked(bytes, start, end) {
    let at = start;
    for (let line = 0; line < LINES_MARKED && at < end; line++) {
        const next = bytes.indexOf(LINE_FEED, at);
        at = next < 0 || next >= end ? end : next + 1;
    }
    return atCharacter(bytes, at >= end ? Math.min(end, start + BYTES_MARKED) : Math.min(at - 1, start + BYTES_MARKED));
}

function startOfContext(bytes, start) {
    let at = start;
    for (let line = 0; line <= LINES_AROUND && at > 0; line++) {
        at = bytes.lastIndexOf(LINE_FEED, at - 1);
    }
    return atCharacter(bytes, Math.max(at < 0 ? 0 : at + (bytes[at] === LINE_FEED ? 1 : 0), start - BYTES_AROUND));
}

function endOfContext(bytes, end) {
    let at = end;
    for (let line = 0; line <= LINES_AROUND && at < bytes.length; line++) {
        const next = bytes.indexOf(LINE_FEED, at + (line > 0 ? 1 : 0));
        at = next < 0 ? bytes.length : next;
    }
    return atCharacter(bytes, Math.min(at, end + BYTES_AROUND));
}

// The first byte of the character that the byte belongs to.
function atCharacter(bytes, at) {
    let start = at;
    while (start > 0 && (bytes[start] & 0xc0) === 0x80) {
        start--;
    }
    return start;
}
