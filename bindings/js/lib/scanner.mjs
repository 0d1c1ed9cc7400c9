// Walks over JSON text by its bytes: for a tree that keeps numbers as they are written, for a part of a file as it is written, and
// to say where bytes stop being JSON. Its rules are those of docs/PROFILE.md, "Reading". The verdict never comes from here.

/** The most levels of arrays and objects. */
const MOST_LEVELS = 127;

const QUOTE = 0x22;
const BACKSLASH = 0x5c;
const COMMA = 0x2c;
const COLON = 0x3a;
const OPEN_ARRAY = 0x5b;
const CLOSE_ARRAY = 0x5d;
const OPEN_OBJECT = 0x7b;
const CLOSE_OBJECT = 0x7d;

const LITERALS = new Map([[0x74, 'true'], [0x66, 'false'], [0x6e, 'null']]);
const NUMBER = /-?(?:0|[1-9][0-9]*)(?:\.[0-9]+)?(?:[eE][+-]?[0-9]+)?/y;
const LONGEST_NUMBER = 4096;

/** Bytes stop being JSON here. `why` is the key of a text. */
export class NotJson extends Error {
    constructor(at, why) {
        super(`${why} at byte ${at}`);
        this.at = at;
        this.why = why;
    }
}

/**
 * What a walk over JSON does with what it meets. A state stands for an object or an array that is looked into; null stands
 * for one that is not. This visitor looks into nothing.
 */
export class Visitor {
    /** The state of a member of an object, whose name begins at the byte `nameStart`. */
    member(_state, _name, _nameStart) {
        return null;
    }

    /** The state of an entry of an array. */
    entry(_state, _position) {
        return null;
    }

    /** The value of a state stands from the byte `start` to the byte `end`. */
    value(_state, _start, _end) {
    }
}

/** Walks over JSON text. */
export class Scanner {
    /** @param {Uint8Array} bytes */
    constructor(bytes, visitor = new Visitor()) {
        this.bytes = bytes;
        this.visitor = visitor;
        this.at = 0;
        this.level = 0;
    }

    /** The whole text, which has one value. */
    whole(state) {
        this.spaced(state);
        if (this.at < this.bytes.length) {
            throw new NotJson(this.at, 'moreAfterEnd');
        }
    }

    spaced(state) {
        this.space();
        this.any(state);
        this.space();
    }

    space() {
        const { bytes } = this;
        let byte = bytes[this.at];
        while (byte === 0x20 || byte === 0x0a || byte === 0x0d || byte === 0x09) {
            byte = bytes[++this.at];
        }
    }

    /** One value, without the space around it. */
    any(state) {
        const start = this.at;
        const byte = this.bytes[start];
        if (byte === QUOTE) {
            this.string();
        } else if (byte === OPEN_OBJECT) {
            this.object(state);
        } else if (byte === OPEN_ARRAY) {
            this.array(state);
        } else if (LITERALS.has(byte)) {
            this.literal(LITERALS.get(byte));
        } else {
            this.number();
        }
        if (state !== null) {
            this.visitor.value(state, start, this.at);
        }
    }

    object(state) {
        this.open();
        if (this.closes(CLOSE_OBJECT)) {
            return;
        }
        do {
            const nameStart = this.at;
            if (this.bytes[nameStart] !== QUOTE) {
                this.fail('nameExpected');
            }
            this.string();
            const nameEnd = this.at;
            this.space();
            this.expect(COLON, 'colonExpected');
            const name = state === null ? null : this.text(nameStart, nameEnd);
            this.spaced(state === null ? null : this.visitor.member(state, name, nameStart));
        } while (this.goesOn(CLOSE_OBJECT));
    }

    array(state) {
        this.open();
        if (this.closes(CLOSE_ARRAY)) {
            return;
        }
        let position = 0;
        do {
            this.spaced(state === null ? null : this.visitor.entry(state, position));
            position++;
        } while (this.goesOn(CLOSE_ARRAY));
    }

    open() {
        this.level++;
        if (this.level > MOST_LEVELS) {
            this.fail('tooDeep');
        }
        this.at++;
        this.space();
    }

    // Steps behind the bracket that closes, if it stands here.
    closes(close) {
        if (this.bytes[this.at] !== close) {
            return false;
        }
        this.at++;
        this.level--;
        return true;
    }

    // After a member or an entry: steps behind a comma, with another one after it, or behind the bracket that closes.
    goesOn(close) {
        if (this.closes(close)) {
            return false;
        }
        this.expect(COMMA, 'commaExpected');
        this.space();
        if (this.bytes[this.at] === close) {
            this.fail('commaBeforeEnd');
        }
        return true;
    }

    expect(byte, why) {
        if (this.bytes[this.at] !== byte) {
            this.fail(why);
        }
        this.at++;
    }

    literal(word) {
        for (const letter of word) {
            this.expect(letter.charCodeAt(0), 'unknownWord');
        }
    }

    string() {
        const { bytes } = this;
        for (let at = this.at + 1; ; at++) {
            const byte = bytes[at];
            if (byte === QUOTE) {
                this.at = at + 1;
                return;
            }
            if (byte === BACKSLASH) {
                at += this.escape(at);
            } else if (byte === undefined || byte < 0x20) {
                this.at = at;
                this.fail('controlInText');
            }
        }
    }

    // How many bytes of an escape stand after its backslash. A high surrogate needs a low one behind it.
    escape(at) {
        this.at = at;
        const letter = String.fromCharCode(this.bytes[at + 1] ?? 0);
        if ('"\\/bfnrt'.includes(letter)) {
            return 1;
        }
        const unit = letter === 'u' ? this.unit(at + 2) : this.fail('unknownEscape');
        if (unit < 0xd800 || unit > 0xdfff) {
            return 5;
        }
        const low = unit < 0xdc00 && this.bytes[at + 6] === BACKSLASH && this.bytes[at + 7] === 0x75 ? this.unit(at + 8) : 0;
        return low >= 0xdc00 && low <= 0xdfff ? 11 : this.fail('halfSurrogate');
    }

    unit(at) {
        const digits = String.fromCharCode(...this.bytes.subarray(at, at + 4));
        return /^[0-9a-fA-F]{4}$/.test(digits) ? parseInt(digits, 16) : this.fail('unknownEscape');
    }

    number() {
        const { bytes } = this;
        let end = this.at;
        while (isOfNumber(bytes[end])) {
            end++;
        }
        const text = String.fromCharCode(...bytes.subarray(this.at, Math.min(end, this.at + LONGEST_NUMBER)));
        NUMBER.lastIndex = 0;
        const read = NUMBER.exec(text)?.[0].length ?? 0;
        if (read === 0) {
            this.fail('valueExpected');
        }
        if (read < text.length) {
            this.at += read;
            this.fail('badNumber');
        }
        if (!Number.isFinite(Number(text)) && end - this.at <= LONGEST_NUMBER) {
            this.fail('numberTooLarge');
        }
        this.at = end;
    }

    /** The text whose spelling, with its quotes, stands between two bytes. */
    text(start, end) {
        return JSON.parse(textOf(this.bytes, start, end));
    }

    fail(why) {
        throw new NotJson(this.at, this.at >= this.bytes.length ? 'endsEarly' : why);
    }
}

function isOfNumber(byte) {
    return (byte >= 0x30 && byte <= 0x39) || byte === 0x2d || byte === 0x2b || byte === 0x2e || byte === 0x65 || byte === 0x45;
}

const DECODER = new TextDecoder('utf-8', { ignoreBOM: true });

/** The characters between two bytes. Bytes that are not UTF-8 become U+FFFD. */
export function textOf(bytes, start, end) {
    return DECODER.decode(bytes.subarray(start, end));
}
