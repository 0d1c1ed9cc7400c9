// Two texts word by word, and a word that was replaced character by character: what differs is told apart from what is equal.
import { aligned, alikeEnds } from './alignment.mjs';

/** The most characters of texts that are compared; longer ones differ as a whole. */
const MOST_CHARACTERS = 20_000;

/**
 * A part of a text, and whether the other text lacks it.
 * @typedef {{text: string, changed: boolean}} Piece
 */

/**
 * The pieces of two texts. Of a word in place of another one, what both begin with and end with is equal.
 * @returns {{left: Piece[], right: Piece[]}}
 */
export function piecesOfBoth(left, right) {
    const sides = { left: [], right: [] };
    for (const { left: one, right: other, same } of rowsOfWords(left, right)) {
        const [ones, others] = [one, other].map((word) => charactersOf(word?.text ?? ''));
        const { start, end } = same ? { start: ones.length, end: 0 } : alikeEnds(ones, others, (character, another) => character === another);
        for (const [pieces, characters] of [[sides.left, ones], [sides.right, others]]) {
            const cuts = [0, start, characters.length - end, characters.length];
            [false, true, false].forEach((changed, at) => addPiece(pieces, characters.slice(cuts[at], cuts[at + 1]).join(''), changed));
        }
    }
    return sides;
}

/**
 * Both texts as one, with words that were removed before those that came in.
 * @returns {{text: string, mark: '' | 'removed' | 'added'}[]}
 */
export function mergedText(left, right) {
    const pieces = [];
    for (const run of runsOf(rowsOfWords(left, right))) {
        pieces.push(...run.same ? [{ text: run.left, mark: '' }]
            : [{ text: run.left, mark: 'removed' }, { text: run.right, mark: 'added' }].filter(({ text }) => text !== ''));
    }
    return pieces;
}

function rowsOfWords(left, right) {
    if (left.length + right.length > MOST_CHARACTERS) {
        return [{ left: left === '' ? null : lineOf(left), right: right === '' ? null : lineOf(right), same: left === right }];
    }
    return aligned(wordsOf(left), wordsOf(right));
}

// Words, runs of blanks, and every other character by itself.
function wordsOf(text) {
    return (text.match(/[\p{L}\p{N}\p{M}]+|\s+|[^]/gu) ?? []).map(lineOf);
}

function lineOf(text) {
    return { text, like: text };
}

// Neighbouring rows that are all equal, or all not.
function runsOf(rows) {
    const runs = [];
    for (const { left, right, same } of rows) {
        if (runs.at(-1)?.same !== same) {
            runs.push({ left: '', right: '', same });
        }
        runs.at(-1).left += left?.text ?? '';
        runs.at(-1).right += right?.text ?? '';
    }
    return runs;
}

// Each character with the marks on it.
function charactersOf(text) {
    return text.match(/\P{M}?\p{M}*/gu).filter((character) => character !== '');
}

function addPiece(pieces, text, changed) {
    if (pieces.at(-1)?.changed === changed) {
        pieces.at(-1).text += text;
    } else if (text !== '') {
        pieces.push({ text, changed });
    }
}
