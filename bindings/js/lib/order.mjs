// The order of texts and of keys: that of their UTF-8 bytes, which is the order of their code points.

/** Whether the left text comes before the right one (negative), or after it (positive). */
export function orderOfTexts(left, right) {
    const length = Math.min(left.length, right.length);
    for (let at = 0; at < length; at++) {
        const one = left.charCodeAt(at);
        const other = right.charCodeAt(at);
        if (one !== other) {
            return rank(one) - rank(other);
        }
    }
    return left.length - right.length;
}

// Halves of surrogate pairs stand for characters behind all others.
function rank(unit) {
    return unit >= 0xd800 && unit <= 0xdfff ? unit + 0x10000 : unit;
}

/** The order of keys: part by part. An object without a key comes first. */
export function orderOfKeys(left, right) {
    if (left === null || right === null) {
        return (left === null ? 0 : 1) - (right === null ? 0 : 1);
    }
    return left.map((part, index) => orderOfTexts(part, right[index])).find((order) => order !== 0) ?? 0;
}

/** One text for a key, so that keys can be looked up. */
export function textOfKey(key) {
    return JSON.stringify(key);
}
