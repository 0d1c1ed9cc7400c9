// The mark of a prepared copy: a line of its notes, which are not compared. It says from which file the copy comes and by which steps,
// so that it says so when it is opened again. Anybody can write such a line, so the page says that the notes say so.
import { foundPlaces } from './places.mjs';
import { textOf } from '../../bindings/js/lib/scanner.mjs';

const FROM_XML = ', converted from XML';
const MARK = /^Prepared by erd from (".*")(, converted from XML)? \(SHA-256 ([0-9a-f]{64})\): ((?:[a-z-]+ \d+(?:, )?)+)\.$/m;
const OPENING = /^\ufeff?\s*\{(\s*)/;

/**
 * What is known of a copy: the name and the sum of its file, what is known of its conversion if the file was in XML, and the steps with how
 * often each changed something. Of a copy that was opened again only whether it was converted is known.
 * @typedef {{name: string, original: string, converted: object | boolean | null, steps: {name: string, count: number}[]}} Origin
 */

/**
 * A report with the mark in its notes. What is no object stays as it is.
 * @param {Uint8Array} bytes of JSON
 * @param {Origin} origin
 */
export function withMark(bytes, origin) {
    const text = new TextDecoder('utf-8', { ignoreBOM: true }).decode(bytes);
    const opening = OPENING.exec(text);
    if (opening === null) {
        return bytes;
    }
    const [found] = foundPlaces(bytes, [['Notes']]);
    const { start, end } = found?.way.at(-1) ?? {};
    if (found !== null && bytes[start] === 0x22) {
        const notes = JSON.stringify(`${JSON.parse(textOf(bytes, start, end))}\n${lineOf(origin)}`);
        return joined(bytes.subarray(0, start), encoded(notes), bytes.subarray(end));
    }
    const at = encoded(opening[0]).length;
    const isEmpty = text[opening[0].length] === '}';
    const member = `"Notes": ${JSON.stringify(lineOf(origin))}${isEmpty ? '' : `,${opening[1]}`}`;
    return found !== null ? bytes : joined(bytes.subarray(0, at), encoded(member), bytes.subarray(at));
}

function lineOf({ name, original, converted, steps }) {
    return `Prepared by erd from ${JSON.stringify(name)}${converted ? FROM_XML : ''} (SHA-256 ${original}): ${steps.map((step) => `${step.name} ${step.count}`).join(', ')}.`;
}

function encoded(text) {
    return new TextEncoder().encode(text);
}

function joined(...parts) {
    const bytes = new Uint8Array(parts.reduce((sum, { length }) => sum + length, 0));
    parts.reduce((at, part) => (bytes.set(part, at), at + part.length), 0);
    return bytes;
}

/**
 * What the notes of a report say of its origin; null if they have no mark.
 * @param {string | undefined} notes
 * @returns {Origin | null}
 */
export function markIn(notes) {
    const found = typeof notes === 'string' ? MARK.exec(notes) : null;
    if (found === null) {
        return null;
    }
    const steps = found[4].split(', ').map((step) => step.split(' ')).map(([name, count]) => ({ name, count: Number(count) }));
    return { name: nameIn(found[1]), original: found[3], converted: found[2] !== undefined, steps };
}

function nameIn(quoted) {
    try {
        return JSON.parse(quoted);
    } catch {
        return quoted;
    }
}

/** Notes without the mark. */
export function withoutMark(notes) {
    const plain = notes?.replace(MARK, '').trim();
    return plain === '' ? undefined : plain;
}
