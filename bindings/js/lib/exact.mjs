// Reads JSON that the proved code has written, and writes values of it, with whole numbers kept as they are.
import { Scanner, Visitor, textOf } from './scanner.mjs';

/**
 * The value of a JSON text that the proved code has written. Whole numbers that a number of JavaScript can't hold become BigInt.
 * @param {Uint8Array} bytes
 */
export function readExactly(bytes) {
    const text = textOf(bytes, 0, bytes.length);
    return /\d{16}/.test(text) ? new ExactReader(bytes).read() : JSON.parse(text);
}

/** The same of a text. */
export function exactValue(text) {
    return readExactly(new TextEncoder().encode(text));
}

class ExactReader extends Visitor {
    constructor(bytes) {
        super();
        this.bytes = bytes;
        this.scanner = new Scanner(bytes, this);
    }

    read() {
        const holder = { value: null };
        this.scanner.whole({ keep: (value) => (holder.value = value), inner: null });
        return holder.value;
    }

    member(state, name) {
        state.inner ??= {};
        return { keep: (value) => define(state.inner, name, value), inner: null };
    }

    entry(state) {
        state.inner ??= [];
        return { keep: (value) => state.inner.push(value), inner: null };
    }

    value(state, start, end) {
        state.keep(state.inner ?? plainValue(textOf(this.bytes, start, end)));
    }
}

// A text, a number, a literal, or an empty array or object.
function plainValue(text) {
    const value = JSON.parse(text);
    return typeof value === 'number' && !Number.isSafeInteger(value) ? BigInt(text) : value;
}

// A member of any name, `__proto__` too.
function define(object, name, value) {
    Object.defineProperty(object, name, { value, writable: true, enumerable: true, configurable: true });
}

/** The compact JSON text of a value, in which BigInt stands for a whole number. */
export function compactText(value) {
    if (typeof value === 'bigint') {
        return String(value);
    }
    if (Array.isArray(value)) {
        return `[${value.map(compactText).join(',')}]`;
    }
    if (value !== null && typeof value === 'object') {
        return `{${Object.entries(value).map(([name, inner]) => `${JSON.stringify(name)}:${compactText(inner)}`).join(',')}}`;
    }
    return JSON.stringify(value);
}
