// The tree of a report, from which the same values can be written again: objects as maps, with their members in the order in which
// they are written, and numbers as they are written. Of a name that is written twice the last value counts, as for erd.
import { NotJson, Scanner, Visitor, textOf } from './scanner.mjs';

const MARK = [0xef, 0xbb, 0xbf];

/** A number as it is written. */
export class WrittenNumber {
    constructor(text) {
        this.text = text;
    }
}

/** Whether the bytes begin with a byte order mark. */
export function hasMark(bytes) {
    return MARK.every((byte, index) => bytes[index] === byte);
}

/** The bytes without a byte order mark before them. */
export function withoutMark(bytes) {
    return hasMark(bytes) ? bytes.subarray(MARK.length) : bytes;
}

class TreeReader extends Visitor {
    constructor(bytes) {
        super();
        this.bytes = bytes;
        this.keep = { value: undefined };
    }

    member(state, name) {
        state.inner ??= new Map();
        return { holder: state.inner, step: name, inner: null };
    }

    entry(state, position) {
        state.inner ??= [];
        return { holder: state.inner, step: position, inner: null };
    }

    value({ holder, step, inner }, start, end) {
        const value = inner ?? this.plain(start, end);
        if (holder instanceof Map) {
            holder.set(step, value);
        } else {
            holder[step] = value;
        }
    }

    // A text, a number, a literal, or an empty object or array.
    plain(start, end) {
        const text = textOf(this.bytes, start, end);
        if (text[0] === '{') {
            return new Map();
        }
        return /^[-0-9]/.test(text) ? new WrittenNumber(text) : JSON.parse(text);
    }
}

/**
 * The tree of a report. A byte order mark before it is passed over.
 * @param {Uint8Array} bytes
 * @throws {NotJson} if the bytes are not JSON
 */
export function readTree(bytes) {
    const rest = withoutMark(bytes);
    const reader = new TreeReader(rest);
    try {
        new TextDecoder('utf-8', { fatal: true, ignoreBOM: true }).decode(rest);
    } catch {
        throw new NotJson(0, 'notUtf8');
    }
    new Scanner(rest, reader).whole({ holder: reader.keep, step: 'value', inner: null });
    return reader.keep.value;
}

/** The compact text of a value. */
export function compactText(value) {
    if (value instanceof Map) {
        return `{${[...value].map(([name, member]) => `${JSON.stringify(name)}:${compactText(member)}`).join(',')}}`;
    }
    if (Array.isArray(value)) {
        return `[${value.map(compactText).join(',')}]`;
    }
    return value instanceof WrittenNumber ? value.text : JSON.stringify(value);
}
