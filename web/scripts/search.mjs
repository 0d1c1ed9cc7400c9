// What a reader looks for.

/** Whether each of the words is in one of the texts, in capitals or not. */
export function hasWords(texts, words) {
    const text = texts.join('\n').toLowerCase();
    return words.toLowerCase().split(/\s+/).every((word) => text.includes(word));
}
