// Why two texts that differ look alike: docs/FIXES.md, "Differences that people don't see".
import { LIKE_LATIN, LIKE_PLAIN } from './confusables.mjs';

const LATIN = new Map(pairsOf(LIKE_LATIN));
const SHAPES = new Map(pairsOf(LIKE_PLAIN));
const IGNORED = /[\p{Default_Ignorable_Code_Point}\p{Cf}]/gu;
const QUOTES = /[‘’‚‛′\x60´]/g;
const DOUBLE_QUOTES = /[“”„‟″]/g;
const DASHES = /[‐‑‒–—−]/g;

// Each way to see past a difference, with the key of its text, the plainest first.
const WAYS = [
    ['spelling', (text) => text.normalize('NFC')],
    ['hidden', (text) => text.replace(IGNORED, '')],
    ['blanks', (text) => text.replace(/\s+/g, ' ').trim()],
    ['letters', (text) => text.replace(/./gu, (letter) => LATIN.get(letter) ?? letter)],
    ['shapes', (text) => text.replace(/./gu, (letter) => SHAPES.get(letter) ?? letter)],
    ['marks', (text) => text.replace(QUOTES, "'").replace(DOUBLE_QUOTES, '"').replace(DASHES, '-')],
];

/**
 * Why two different texts look alike; an empty list if they don't.
 * @returns {('spelling' | 'hidden' | 'blanks' | 'letters' | 'shapes' | 'marks')[]}
 */
export function whyAlike(left, right) {
    if (left === right || plain(left) !== plain(right)) {
        return [];
    }
    const found = WAYS.filter(([, way]) => differsIn(way, left, right)).map(([key]) => key);
    return found.length > 0 ? found : ['spelling'];
}

function pairsOf(table) {
    return Object.entries(table).flatMap(([one, others]) => [...others].map((other) => [other, one]));
}

function plain(text) {
    return WAYS.reduce((before, [, way]) => way(before), text);
}

// Whether the texts differ in what this way alone sees past: what all other ways leave is not equal.
function differsIn(way, left, right) {
    const others = (text) => WAYS.filter(([, one]) => one !== way).reduce((before, [, one]) => one(before), text);
    return others(left) !== others(right);
}
