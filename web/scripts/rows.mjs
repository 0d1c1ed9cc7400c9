// A difference of the proved list as the page shows it: what the object is called, and the values of both sides beside each other.
import { aligned } from './alignment.mjs';
import { whyAlike } from './look_alikes.mjs';
import { piecesOfBoth } from './text_changes.mjs';
import { titleOf } from './trail.mjs';
import { jsonLines, linesOf } from './values.mjs';

const ROWS_AROUND = 2;
/** The most rows of one difference that are shown. */
const MOST_ROWS = 400;

/**
 * What the page shows of a difference: what the object is called, its classes if it is an object that differs, and if it is a member the
 * rows of both values, which side has none, and which side's is empty. A member whose values the list does not tell has no rows.
 * @param {import('../../bindings/js/index.d.ts').Difference} difference
 * @param {import('./values.mjs').Called[]} called of the left report and of the right one
 */
export function rowsOfDifference({ part, key, how, member, values }, called) {
    const sides = [values?.left, values?.right];
    if (how !== 'member') {
        return { titles: sides.map((record) => (record === undefined ? null : titleOf(record.members))), rows: null,
            classes: sides.map((record) => record?.class.replace('ElectionResults.', '') ?? null) };
    }
    const titles = called.map((ofSide) => ofSide(part, key)?.title ?? null);
    return values === undefined ? { titles } : { titles, ...rowsOfMember(member, values, called) };
}

/** The rows of both values of a member, at most so many, which side has none, and which side's is empty. */
export function rowsOfMember(member, { left, right }, called, most = MOST_ROWS) {
    const sides = [left, right];
    const lines = sides.map((value, at) => (value === undefined ? [] : linesOf(member, value, called[at])));
    return { rows: shownRows(rowsOfLines(sides, lines), most).map(withPieces), there: sides.map((value) => value !== undefined),
        lacking: lines.map((some) => some.length === 0) };
}

// Two values may differ in what the lines for a reader leave out. Then their JSON is shown, with keys in place of references.
function rowsOfLines(sides, lines) {
    const rows = aligned(...lines);
    const isTold = rows.some(({ same }) => !same) || sides.includes(undefined);
    return isTold ? rows : aligned(...sides.map(jsonLines));
}

// What differs within two lines, and why they look alike if they do.
function withPieces(row) {
    const { left, right, same } = row;
    return same !== false || left === null || right === null ? row : { ...row, pieces: piecesOfBoth(left.text, right.text), alike: whyAlike(left.text, right.text) };
}

/**
 * Of many rows those that differ, with some equal rows around them, and a count in place of those that are left out: `equal` counts rows
 * that are equal, and `more` the rows that differ and are left out at the end.
 */
export function shownRows(rows, most = MOST_ROWS) {
    const shown = [];
    const leftOut = (count) => (count === 0 ? [] : [{ equal: count }]);
    let equal = 0;
    for (const [at, row] of rows.entries()) {
        if (rows.slice(Math.max(0, at - ROWS_AROUND), at + ROWS_AROUND + 1).every(({ same }) => same)) {
            equal++;
            continue;
        }
        if (shown.length >= most) {
            const more = rows.slice(at).filter(({ same }) => !same).length;
            return [...shown, ...(more > 0 ? [{ more }] : leftOut(equal + rows.length - at))];
        }
        shown.push(...leftOut(equal), row);
        equal = 0;
    }
    return [...shown, ...leftOut(equal)];
}
