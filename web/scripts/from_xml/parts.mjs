// Cuts the text of XML into parts that a reader of XML takes one after another: each with the elements that are open before it and after
// it, so that it is XML by itself. Nothing is understood here: it is found where tags, comments and texts end, and the reader judges them.
import { NotXml } from './frame.mjs';

const ENOUGH = 1 << 18;
/** How many characters a tag, a comment or an instruction may have, and all tags together that are open. */
const MOST_OF_TAG = 1 << 18;
/** How many attributes a tag may have: for a browser those of one tag cost the square of their count. */
const MOST_ATTRIBUTES = 100;
// With so many elements open, JSON has more levels than are read.
const MOST_OPEN = 256;
const MOST_LEVELS = 127;
// How far from its end a text is looked at for a place where it can be cut.
const BACK = 1024;

const [BANG, DOUBLE_QUOTE, SINGLE_QUOTE, SLASH, LESS, GREATER, QUESTION] = [...'!"\'/<>?'].map((letter) => letter.charCodeAt(0));
// With a space in it, since the letters would begin a comment in the page that holds this script.
const COMMENT = '< !--'.replace(' ', '');
const CDATA = '<![CDATA[';
const END_OF_CDATA = ']]>';
const NAME = /^<([^ \t\r\n/>]*)/;

/**
 * @typedef {object} Part
 * @property {string} text what the reader takes: the content between the tags of the elements that are open
 * @property {string} content
 * @property {number} before how many elements are open before it, and how many after it
 * @property {number} after
 * @property {number[]} starts where the elements begin and end in the content
 * @property {number[]} ends
 * @property {number} line the line in which the content begins
 * @property {number} lead how many lines the tags before the content have
 */

/** An element that is open: its beginning in the content of the part, or the tag itself once the part has ended. */
class Open {
    constructor(from, to) {
        this.from = from;
        this.to = to;
        this.tag = null;
    }

    get name() {
        return NAME.exec(this.tag)[1];
    }
}

export class Parts {
    /** @param {number} [enough] how many characters a part has at least, but for the last one */
    constructor(enough = ENOUGH) {
        this.enough = enough;
        // What is not in a part yet, and how much of it is in whole tokens.
        this.rest = '';
        this.at = 0;
        this.open = [];
        this.lengthOfOpen = 0;
        this.line = 1;
        this.isBegun = false;
        this.isInCdata = false;
        this.#begin('');
    }

    #begin(lead) {
        Object.assign(this, { lead, before: this.open.length, starts: [], ends: [] });
    }

    /**
     * The parts that are whole with more of the text; with the last of it, all that are left.
     * @returns {Generator<Part>}
     */
    *more(text, isLast) {
        this.rest += text;
        for (let end = this.#endOfToken(isLast); end > this.at; end = this.#endOfToken(isLast)) {
            this.#take(end);
            // What stands before the root and behind it is in one part with some of it.
            if (this.at >= this.enough && this.open.length > 0) {
                yield this.#whole();
            }
        }
        if (isLast) {
            if (this.at < this.rest.length || this.isInCdata || this.open.length > 0 || !this.isBegun) {
                this.#fail('malformed');
            }
            yield this.#whole();
        }
    }

    #fail(why) {
        throw new NotXml(why, { line: this.line + linesIn(this.rest.slice(0, this.at)), most: MOST_OF_TAG });
    }

    #whole() {
        const content = this.rest.slice(0, this.at);
        for (const open of this.open.filter(({ tag }) => tag === null)) {
            open.tag = content.slice(open.from, open.to);
        }
        const { lead, before, starts, ends, line, isInCdata } = this;
        const closing = [isInCdata ? END_OF_CDATA : '', ...[...this.open].reverse().map(({ name }) => `</${name}>`)].join('');
        const part = { text: lead + content + closing, content, before, after: this.open.length, starts, ends, line, lead: linesIn(lead) };
        this.line += linesIn(content);
        this.rest = this.rest.slice(this.at);
        this.at = 0;
        this.#begin(this.open.map(({ tag }) => tag).join('') + (isInCdata ? CDATA : ''));
        return part;
    }

    // Where the token ends that begins here; here itself if its end is not there yet.
    #endOfToken(isLast) {
        const { rest, at } = this;
        if (at === rest.length) {
            return at;
        }
        if (this.isInCdata) {
            return this.#endOfText(rest.indexOf(END_OF_CDATA, at), END_OF_CDATA.length, isLast);
        }
        if (rest.charCodeAt(at) !== LESS) {
            return this.#endOfText(rest.indexOf('<', at), 0, isLast);
        }
        const end = this.#endOfMarkup(isLast);
        if (Math.min(end, rest.length) - at > MOST_OF_TAG) {
            this.#fail('longTag');
        }
        return end > rest.length ? at : end;
    }

    // Where a tag, a comment or the like ends; past the end of the text if it ends later.
    #endOfMarkup(isLast) {
        const { rest, at } = this;
        const letter = rest.charCodeAt(at + 1);
        if (letter === SLASH) {
            return behind(rest, '>', at + 2);
        }
        if (letter === QUESTION) {
            return behind(rest, '?>', at + 2);
        }
        if (letter === BANG && rest.length - at < CDATA.length && !isLast) {
            return rest.length + 1;
        }
        if (rest.startsWith(COMMENT, at)) {
            return behind(rest, '-->', at + COMMENT.length);
        }
        return rest.startsWith(CDATA, at) ? at + CDATA.length : endOfTag(rest, at);
    }

    // A text ends where markup begins. A long one is cut, but not within what stands for one character or for its end.
    #endOfText(found, more, isLast) {
        const { rest, at } = this;
        if (found >= 0) {
            return found + more;
        }
        if (isLast) {
            return rest.length;
        }
        const least = Math.max(at, rest.length - BACK);
        const reference = rest.lastIndexOf('&');
        let end = reference >= least && rest.indexOf(';', reference) < 0 ? reference : rest.length;
        while (end > least && /[\]\r\ud800-\udbff]/.test(rest[end - 1])) {
            end--;
        }
        return end;
    }

    #take(end) {
        const { rest, at } = this;
        const letter = rest.charCodeAt(at + 1);
        if (this.isInCdata) {
            this.isInCdata = !rest.startsWith(END_OF_CDATA, end - END_OF_CDATA.length);
        } else if (rest.charCodeAt(at) === LESS && letter === SLASH) {
            this.#close();
        } else if (rest.charCodeAt(at) === LESS && letter === BANG) {
            this.isInCdata = rest.startsWith(CDATA, at);
            if (!this.isInCdata && !rest.startsWith(COMMENT, at)) {
                this.#fail(rest.startsWith('<!DOCTYPE', at) ? 'doctype' : 'malformed');
            }
        } else if (rest.charCodeAt(at) === LESS && letter !== QUESTION) {
            this.#element(end);
        }
        this.at = end;
    }

    #close() {
        if (this.open.length === 0) {
            this.#fail('malformed');
        }
        const { from, to } = this.open.pop();
        this.ends.push(this.at);
        this.lengthOfOpen -= to - from;
    }

    #element(end) {
        if (this.open.length === 0 && this.isBegun) {
            this.#fail('malformed');
        }
        this.isBegun = true;
        this.starts.push(this.at);
        if (this.rest.charCodeAt(end - 2) === SLASH) {
            this.ends.push(end);
            return;
        }
        this.open.push(new Open(this.at, end));
        this.lengthOfOpen += end - this.at;
        if (this.open.length > MOST_OPEN) {
            throw new NotXml('tooDeep', { most: MOST_LEVELS });
        }
        if (this.lengthOfOpen > MOST_OF_TAG) {
            this.#fail('longTag');
        }
    }
}

// The place behind some letters, from a place on; past the end of the text if they are not there.
function behind(text, letters, from) {
    const found = text.indexOf(letters, from);
    return found < 0 ? text.length + 1 : found + letters.length;
}

// Where a tag ends, or past the end of the text if it ends later: what stands in quotes does not end it.
function endOfTag(text, from) {
    let quoted = 0;
    for (let at = from + 1; at < text.length; at++) {
        const letter = text.charCodeAt(at);
        if (letter === GREATER) {
            return at + 1;
        }
        if (letter === DOUBLE_QUOTE || letter === SINGLE_QUOTE) {
            at = behind(text, text[at], at + 1) - 1;
            quoted++;
        }
        if (quoted > MOST_ATTRIBUTES) {
            throw new NotXml('manyAttributes', { most: MOST_ATTRIBUTES });
        }
    }
    return text.length + 1;
}

/** How many lines end in a text. */
export function linesIn(text) {
    return text.match(/\r\n|\r|\n/g)?.length ?? 0;
}

/** Counts the lines of a part: of one place after another. */
export class LineCounter {
    constructor({ content, line }) {
        Object.assign(this, { content, line, at: 0 });
    }

    /** The line of a place that is none before the last one. */
    of(place) {
        this.line += linesIn(this.content.slice(this.at, place));
        this.at = place;
        return this.line;
    }
}
