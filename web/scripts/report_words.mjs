// The words of the objects of a report by their keys, as the proved code lists them: docs/API.md, "Words of ballots".
import { compactText } from '../../bindings/js/lib/exact.mjs';
import { textOfKey } from '../../bindings/js/lib/order.mjs';
import { textOf } from '../../bindings/js/lib/scanner.mjs';
import { titleOf } from './trail.mjs';
import { listsIn } from './types.mjs';

/**
 * An object: its words, and what it is called, which is null if it has no name. A contest has the words of its selections, by the texts of
 * their names.
 * @typedef {{key: string[] | null, words: object, title: string | null, selections?: Map<string, object>}} Thing
 */

// The most bytes of a list that are kept: it can be far longer than its report.
const MOST_BYTES = 2 ** 27;

// What stands for an object in a canonical form: docs/PROFILE.md, "The canonical report".
const REFERENCE = /"(gp|pa|pe|of|hd|ca|co)\d+"/g;
// How many bytes the keys in place of references may have for each byte of a form, and in any form.
const FOR_A_BYTE = 8;
const ALWAYS = 2 ** 24;

const LANGUAGE_STRING = 'ElectionResults.LanguageString';

/** The words of one report. */
export class ReportWords {
    /** @param {object[]} entries what `erd_words` lists */
    constructor(entries) {
        this.entries = entries;
        this.parts = {};
        for (const { part, key, words, selections } of entries) {
            this.parts[part] ??= new Map();
            this.parts[part].set(textOfKey(key), {
                key, words, title: titleOf(words),
                ...(part === 'contest' ? { selections: new Map(selections.map(({ name, words: own }) => [compactText(name), own])) } : {}),
            });
        }
    }

    /** All objects of a part, by the texts of their keys. */
    of(part) {
        return this.parts[part] ?? new Map();
    }

    /**
     * The object of a part with this key; undefined if there is none.
     * @returns {Thing | undefined}
     */
    thing(part, key) {
        return this.of(part).get(textOfKey(key));
    }

    /** The languages of all words. */
    get languages() {
        this.keptLanguages ??= [...new Set(languagesIn(this.entries))];
        return this.keptLanguages;
    }

    /** What objects are called, and their words. */
    get called() {
        return (part, key) => this.thing(part, key);
    }
}

function languagesIn(value) {
    if (value === null || typeof value !== 'object') {
        return [];
    }
    const own = value['@type'] === LANGUAGE_STRING && typeof value.Language === 'string' ? [value.Language] : [];
    return [...own, ...Object.values(value).flatMap(languagesIn)];
}

/**
 * Whether the words of a report are no longer than a multiple of its canonical form: a key stands in place of each reference, and a small file
 * may have long keys and many references.
 * @param {Uint8Array} form
 */
export function areBounded(form) {
    const references = textOf(form, 0, form.length).match(REFERENCE)?.length ?? 0;
    let longest = 0;
    for (const { start, end } of listsIn(form)) {
        longest = Math.max(longest, end - start);
    }
    return references * longest <= Math.max(ALWAYS, FOR_A_BYTE * form.length);
}

/**
 * The words of a report that is accepted, asked for piece by piece.
 * @param {import('../../bindings/js/lib/calls.mjs').Erd} erd
 * @param {Uint8Array} bytes
 * @param {string | null} prefer
 * @throws {RangeError} where the list has more bytes than are kept
 */
export function wordsOf(erd, bytes, prefer) {
    const entries = [];
    let left = MOST_BYTES;
    for (const piece of erd.wordsByPieces(bytes, { prefer })) {
        left -= piece.size;
        if (left < 0) {
            throw new RangeError('the words of the report are too long');
        }
        piece.entries.forEach((entry) => entries.push(entry));
    }
    return new ReportWords(entries);
}
