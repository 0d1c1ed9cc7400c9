// The words of fault lines and difference lines, as docs/PROFILE.md has them.

/**
 * The text of each reason by its number, as `tests/pages/tables.py --write` writes them from docs/PROFILE.md; that of a missing
 * member is followed by the member's name.
 */
const WORDS_OF_REASONS = [
    'wrong kind',
    'missing member',
    'wrong class',
    'not a whole number',
    'outside the profile',
    'unknown reference',
    'carried identity',
    'not pre-election',
    'wrong number of elections',
    'empty array',
    'repeated',
    'no external identifier',
    'identifier used twice',
    '@id used twice',
    'unresolved reference',
    'reference to another family',
    'selection of another contest',
    'selection name used twice',
];

/**
 * The JSON Pointer (RFC 6901) of a place.
 * @param {readonly (string | number)[]} place
 * @returns {string}
 */
export function pointerOf(place) {
    return place.map((step) => '/' + String(step).replaceAll('~', '~0').replaceAll('/', '~1')).join('');
}

/**
 * What is wrong, in the words of a fault line.
 * @param {number} reason
 * @param {string} [name] the name of the missing member
 * @returns {string}
 */
export function wordsOf(reason, name) {
    const words = WORDS_OF_REASONS[reason - 1];
    if (words === undefined) {
        throw new RangeError(`no reason has the number ${reason}`);
    }
    return name === undefined ? words : `${words} ${name}`;
}

/**
 * A fault line, without its line feed.
 * @param {string} pointer
 * @param {string} words
 * @returns {string}
 */
export function lineOfFault(pointer, words) {
    return `${pointer}: ${words}`;
}

/**
 * A difference line, without its line feed.
 * @param {{part: string, key: readonly string[] | null, how: string, member?: string}} difference
 * @returns {string}
 */
export function lineOfDifference({ part, key, how, member }) {
    const object = key === null ? part : `${part} ${compactText(key)}`;
    return how === 'member' ? `${object}: member ${compactText(member)}` : `${object}: ${how}`;
}

/**
 * A line of `erd ballots`, without its line feed.
 * @param {readonly string[] | null} key the key of the style
 * @param {string} words
 * @returns {string}
 */
export function lineOfBallot(key, words) {
    return `${key === null ? 'ballot' : `ballot ${compactText(key)}`}: ${words}`;
}

// The compact JSON text of a text or of a list of texts. JSON.stringify writes what `serde_json` writes: the escapes for
// quotes, backslashes and control characters below U+0020, and every other character as it is.
function compactText(value) {
    return JSON.stringify(value);
}

/** The text with each character that a terminal may act on as an escape: names in an untrusted file may hold such characters. */
export function visible(text) {
    return text.replace(/[\p{C}\p{Zl}\p{Zp}]/gu, (letter) => `\\u{${letter.codePointAt(0).toString(16)}}`);
}
