// Which pieces of a ballot stand in which column of its sheets.

/** The part of a column up to which an item is not broken. */
const WHOLE = 0.66;

/**
 * The number of the first piece of each column. No column ends with a piece that keeps the next one, and a short item is not broken.
 * @param {{height: number, keeps: boolean, item: number}[]} pieces
 * @param {number} room how high a column is
 */
export function columnsOf(pieces, room) {
    const starts = [];
    let used = Infinity;
    for (let at = 0; at < pieces.length;) {
        const end = togetherUntil(pieces, at, room);
        const height = heightOf(pieces, at, end);
        if (used + height > room) {
            starts.push(at);
            used = 0;
        }
        used += height;
        at = end;
    }
    return starts;
}

// Where the pieces end that stand together from here on: those that keep the next one, and then the rest of its item, if that is short.
// Pieces that together are higher than a column stand by themselves.
function togetherUntil(pieces, start, room) {
    let end = start + 1;
    while (end < pieces.length && pieces[end - 1].keeps) {
        end++;
    }
    const { item } = pieces[end - 1];
    const isBegun = start === 0 || pieces[start - 1].item !== item;
    const whole = isBegun ? itemEnd(pieces, end, item) : end;
    if (heightOf(pieces, start, whole) <= WHOLE * room) {
        return whole;
    }
    return heightOf(pieces, start, end) <= room ? end : start + 1;
}

function itemEnd(pieces, start, item) {
    let end = start;
    while (end < pieces.length && pieces[end].item === item) {
        end++;
    }
    return end;
}

function heightOf(pieces, start, end) {
    return pieces.slice(start, end).reduce((sum, { height }) => sum + height, 0);
}
