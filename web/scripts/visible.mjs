// Makes characters visible that a reader would not see, or that would change the order of what stands around them.

// Controls, formats (bidirectional overrides among them), separators of lines, halves of surrogate pairs, characters without a
// meaning, all that is ignorable, and every space but the usual one.
const HIDDEN = /[\p{Cc}\p{Cf}\p{Zl}\p{Zp}\p{Cs}\p{Co}\p{Cn}\p{Default_Ignorable_Code_Point}]|(?! )\p{Zs}/gu;

/**
 * The pieces of a text: what is shown as it is, and the code points that are shown as marks.
 * @param {string} text
 * @param {string} [kept] characters that are shown as they are
 * @returns {({text: string} | {mark: string})[]}
 */
export function piecesOf(text, kept = '') {
    const pieces = [];
    let end = 0;
    for (const { 0: character, index } of text.matchAll(HIDDEN)) {
        if (kept.includes(character)) {
            continue;
        }
        if (index > end) {
            pieces.push({ text: text.slice(end, index) });
        }
        pieces.push({ mark: codeOf(character) });
        end = index + character.length;
    }
    return end < text.length ? [...pieces, { text: text.slice(end) }] : pieces;
}

function codeOf(character) {
    return 'U+' + character.codePointAt(0).toString(16).toUpperCase().padStart(4, '0');
}

/** The first characters of a text, without a half of a surrogate pair at the end. */
export function beginningOf(text, length) {
    const end = /[\ud800-\udbff]/.test(text[length - 1]) ? length - 1 : length;
    return text.slice(0, end);
}

/** A text, or its beginning if it is longer than so many characters. */
export function shortened(text, most) {
    return text.length <= most ? text : `${beginningOf(text, most)}…`;
}

/** The last characters of a text, without a half of a surrogate pair at the beginning. */
export function endOf(text, length) {
    const start = text.length - length;
    return text.slice(/[\udc00-\udfff]/.test(text[start]) ? start + 1 : start);
}

const AROUND = 40;
const LONGEST_CHANGED = 200;

/**
 * Of a long text the passages that differ, with some words around each.
 * @param {import('./text_changes.mjs').Piece[]} pieces
 */
export function passageOf(pieces) {
    return pieces.map(({ text, changed }, at) => (changed ? shortened(text, LONGEST_CHANGED)
        : around(text, AROUND, at > 0, at < pieces.length - 1))).join('');
}

/** Of an equal text so many characters at each end that stands next to what differs. */
export function around(text, most, isBehind, isBefore) {
    return text.length <= 2 * most ? text : `${isBehind ? beginningOf(text, most) : ''}…${isBefore ? endOf(text, most) : ''}`;
}
