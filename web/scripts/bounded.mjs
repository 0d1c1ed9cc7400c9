// Texts and pointers of files, made only as far as they are shown: a small file can have names and values whose texts, each told anew for
// every place, are larger than any memory.
import { pointerOf } from '../../bindings/js/lib/words.mjs';
import { WrittenNumber } from '../../bindings/js/lib/tree.mjs';
import { beginningOf, shortened } from './visible.mjs';

/** The most characters of a pointer that are made. */
export const LONGEST_POINTER = 2000;

/**
 * The JSON Pointer of a place, or its beginning.
 * @param {(string | number)[]} place
 */
export function boundedPointer(place, most = LONGEST_POINTER) {
    let text = '';
    for (const step of place) {
        text += pointerOf([typeof step === 'string' && step.length > most ? beginningOf(step, most) : step]);
        if (text.length > most) {
            return `${beginningOf(text, most)}…`;
        }
    }
    return text;
}

/**
 * The compact text of a value of a tree, or its beginning.
 * @param {unknown} value as `readTree` has it
 */
export function boundedText(value, most) {
    const text = written(value, most);
    return shortened(text, most);
}

// At least the first characters of the text, and hardly more.
function written(value, most) {
    const isObject = value instanceof Map;
    if (!isObject && !Array.isArray(value)) {
        return value instanceof WrittenNumber ? value.text : JSON.stringify(typeof value === 'string' ? value.slice(0, most + 1) : value);
    }
    let text = isObject ? '{' : '[';
    for (const entry of isObject ? value : value.values()) {
        const name = isObject ? `${written(entry[0], most)}:` : '';
        text += (text.length > 1 ? ',' : '') + name + written(isObject ? entry[1] : entry, most);
        if (text.length > most) {
            return text;
        }
    }
    return text + (isObject ? '}' : ']');
}
