// A table as CSV (RFC 4180). A cell that a spreadsheet would take for a formula begins with an apostrophe. Some read full-width letters as
// the others, and look behind white space.

const FORMULA = /^[=+\-@\t\r\n\uff1d\uff0b\uff0d\uff20]/;

/** @param {(string | number)[][]} rows */
export function csvOf(rows) {
    return rows.map((row) => `${row.map(cell).join(',')}\r\n`).join('');
}

function cell(value) {
    const text = typeof value === 'string' && FORMULA.test(value) ? `'${value}` : String(value);
    return /[",\r\n]/.test(text) ? `"${text.replaceAll('"', '""')}"` : text;
}
