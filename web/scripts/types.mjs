// The types of identifier that a file has, so that the page can offer them as the preferred one.
import { Scanner, textOf } from '../../bindings/js/lib/scanner.mjs';

const NAME = new TextEncoder().encode('"ExternalIdentifier"');
/** The most types that are told of a file. */
export const MOST_TYPES = 100;
const LONGEST_LIST = 1 << 16;

/**
 * The types of the identifiers in bytes that are JSON, in their order.
 * @param {Uint8Array} bytes
 * @param {(identifier: object) => string} [typeOf] another name of the type of an identifier
 * @param {number} [longest] the most bytes of a list of identifiers that is read
 * @returns {string[]}
 */
export function typesIn(bytes, typeOf = ({ Type }) => Type, longest = LONGEST_LIST) {
    const types = new Set();
    for (const { start, end } of listsIn(bytes)) {
        const list = end - start > longest || start === end ? [] : JSON.parse(textOf(bytes, start, end));
        [list].flat().filter((entry) => typeof entry?.Type === 'string').forEach((entry) => types.add(typeOf(entry)));
        if (types.size >= MOST_TYPES) {
            break;
        }
    }
    return [...types].sort();
}

/** Where the lists of identifiers in bytes that are JSON begin and end. */
export function* listsIn(bytes) {
    for (let at = placeOfName(bytes, 0); at >= 0;) {
        const place = valueAt(bytes, at);
        yield place;
        at = placeOfName(bytes, place.end);
    }
}

// Where the next name ends; -1 if there is none.
function placeOfName(bytes, start) {
    for (let at = bytes.indexOf(NAME[1], start); at >= 0; at = bytes.indexOf(NAME[1], at + 1)) {
        if (NAME.every((byte, index) => bytes[at - 1 + index] === byte)) {
            return at - 1 + NAME.length;
        }
    }
    return -1;
}

// Where the value of a member stands whose name ends here. The name may also be a text of its own; there is no value then.
function valueAt(bytes, at) {
    const scanner = new Scanner(bytes);
    scanner.at = at;
    scanner.space();
    if (bytes[scanner.at] !== 0x3a) {
        return { start: at, end: at };
    }
    scanner.at++;
    scanner.space();
    const start = scanner.at;
    scanner.any(null);
    return { start, end: scanner.at };
}
