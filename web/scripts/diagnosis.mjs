// Why bytes are not JSON, for a reader. That they are not comes from the proved code; this only helps to find out why.
import { NotJson, Scanner } from '../../bindings/js/lib/scanner.mjs';

// How files of other kinds begin.
const BEGINNINGS = [
    ['byteOrderMark', [0xef, 0xbb, 0xbf]],
    ['utf16', [0xff, 0xfe]],
    ['utf16', [0xfe, 0xff]],
    ['zip', [0x50, 0x4b, 0x03, 0x04]],
    ['gzip', [0x1f, 0x8b]],
    ['pdf', [0x25, 0x50, 0x44, 0x46]],
    ['image', [0x89, 0x50, 0x4e, 0x47]],
    ['image', [0xff, 0xd8, 0xff]],
    ['image', [0x47, 0x49, 0x46, 0x38]],
];

const BLANKS = new Set([0x20, 0x09, 0x0a, 0x0d]);
const BLOCK = 1 << 16;

/**
 * Why the bytes are not JSON, and where they stop being so.
 * @param {Uint8Array} bytes
 * @returns {{why: string, at: number | null}} `why` is the key of a text; `at` is null where no place says more
 */
export function whyNotJson(bytes) {
    const kind = BEGINNINGS.find(([, beginning]) => beginning.every((byte, index) => bytes[index] === byte));
    if (kind !== undefined) {
        return { why: kind[0], at: null };
    }
    if (bytes.every((byte) => BLANKS.has(byte))) {
        return { why: 'empty', at: null };
    }
    if (/^\s*</.test(beginningOf(bytes))) {
        return { why: /^\s*<(!doctype html|html)\b/i.test(beginningOf(bytes)) ? 'webPage' : 'markup', at: null };
    }
    const wrong = firstNotUtf8(bytes);
    return wrong === null ? whereItStops(bytes) : { why: 'notUtf8', at: wrong };
}

function beginningOf(bytes) {
    return String.fromCharCode(...bytes.subarray(0, 1000));
}

function whereItStops(bytes) {
    try {
        new Scanner(bytes).whole(null);
    } catch (error) {
        if (error instanceof NotJson) {
            return { why: error.why, at: error.at };
        }
        throw error;
    }
    return { why: 'unknown', at: null };
}

// Where the first character begins that is not UTF-8; null if all are.
function firstNotUtf8(bytes) {
    const decoder = new TextDecoder('utf-8', { fatal: true, ignoreBOM: true });
    for (let start = 0; start < bytes.length; start += BLOCK) {
        const end = Math.min(start + BLOCK, bytes.length);
        if (decoded(decoder, bytes.subarray(start, end), end < bytes.length) === null) {
            return firstIn(bytes, start);
        }
    }
    return null;
}

// The block that begins here has the character, or the end of one that began at most three bytes before.
function firstIn(bytes, start) {
    let at = Math.max(start - 3, 0);
    while (at < start && (bytes[at] & 0xc0) === 0x80) {
        at++;
    }
    const decoder = new TextDecoder('utf-8', { fatal: true, ignoreBOM: true });
    let begin = at;
    for (; at < bytes.length; at++) {
        const text = decoded(decoder, bytes.subarray(at, at + 1), true);
        if (text === null) {
            break;
        }
        begin = text === '' ? begin : at + 1;
    }
    return begin;
}

// The text of bytes; null if they are not UTF-8.
function decoded(decoder, bytes, stream) {
    try {
        return decoder.decode(bytes, { stream });
    } catch {
        return null;
    }
}
