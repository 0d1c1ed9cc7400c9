// Tries what the record of a judgement says, which two offices read to each other and file: each line whole, with its words by
// hand; and what is saved beside it. One line for each case that fails; at the end stand the counts.
import { below } from './elements.mjs';
import { recordOf } from '../../web/scripts/record.mjs';
import { csvOf } from '../../web/scripts/csv.mjs';
import { long, theirs } from '../../web/scripts/dom.mjs';
import { counts, equal } from './counted.mjs';

const SUMS = ['a', 'b', 'c', 'd', 'e'].map((digit) => digit.repeat(64));
const grouped = (sum) => sum.match(/.{4}/g).join('');
const file = (size, sum, form, more) => ({ outcome: 'accepted', size, sha256: sum, canonical: { sha256: form }, elections: [], ...more });

function recorded(date, change = {}) {
    const left = file(1234, SUMS[0], SUMS[1], { elections: [{ name: 'Mayor', start: '2026-11-03', end: '2026-11-03' }], envelope: { Issuer: 'Clerk', Notes: 'Draft' } });
    const right = file(99, SUMS[2], SUMS[3], { isTest: true, envelope: {} });
    const known = { files: [left, right], names: ['a.json', 'b\u202e.json'], prefer: 'fips', version: '9.8.7', pageSum: SUMS[4], verdict: 'THE VERDICT', date,
        findings: null, notices: [], listed: null, ...change };
    const entries = below(recordOf(known, null), 'dl')[0];
    return below(entries, 'div').map((entry) => below(entry, 'dt')[0].textContent + ' | ' + below(entry, 'dd')[0].textContent.split(' Copy ')[0]);
}

// The day of the office, and not that of Greenwich, west and east of it, and where summer time ends.
const DAYS = {
    'America/St_Johns': [['2026-11-04T01:30:00Z', '2026-11-03 22:00 (UTC−03:30)'], ['2026-07-01T02:00:00Z', '2026-06-30 23:30 (UTC−02:30)']],
    'Asia/Kolkata': [['2026-11-03T20:05:00Z', '2026-11-04 01:35 (UTC+05:30)']],
    'America/Denver': [['2027-01-01T05:59:59Z', '2026-12-31 22:59 (UTC−07:00)']],
    UTC: [['2026-11-03T23:59:00Z', '2026-11-03 23:59 (UTC+00:00)']],
};
for (const [zone, rows] of Object.entries(DAYS)) {
    process.env.TZ = zone;
    rows.forEach(([moment, wanted]) => equal(`the day in ${zone}`, recorded(new Date(moment)).find((line) => line.startsWith('Date')), `Date and time | ${wanted}`));
}

const lines = recorded(new Date('2026-11-03T12:00:00Z'));
equal('each line of a record', lines.map((line) => line.replace(/ For the phone only:.*/, '')), [
    'Verdict | THE VERDICT',
    'First file | a.json (1,234 bytes)', 'Election | Mayor, 2026-11-03', 'Verdict on this file | Accepted',
    `SHA-256 of the file | ${grouped(SUMS[0])}`, `SHA-256 of the canonical form | ${grouped(SUMS[1])}`,
    'Envelope and notes, which are not compared | Issuer: Clerk; Notes: Draft',
    'Second file | bU+202E.json (99 bytes)', 'Mark | a test', 'Verdict on this file | Accepted',
    `SHA-256 of the file | ${grouped(SUMS[2])}`, `SHA-256 of the canonical form | ${grouped(SUMS[3])}`,
    'Envelope and notes, which are not compared | none',
    'Preferred type of identifier | fips', 'Date and time | 2026-11-03 12:00 (UTC+00:00)', 'Made with | erd 9.8.7',
    `SHA-256 of this page | ${grouped(SUMS[4])}`]);
equal('no preferred type', recorded(new Date(0), { prefer: null }).find((line) => line.startsWith('Preferred')), 'Preferred type of identifier | none');

// What is filed has more than the verdict: what was found, what is proved and what is not, and where to sign.
const finding = { tag: 'p', children: ['A DIFFERENCE'], textContent: 'A DIFFERENCE' };
const whole = recordOf({ files: [file(1, SUMS[0], SUMS[1])], names: ['a.json'], prefer: null, version: '1', pageSum: SUMS[4], verdict: 'V', date: new Date(0),
    findings: finding, notices: [['A NOTICE']], listed: null }, null);
const filed = below(whole, 'div').find(({ attributes }) => attributes?.class === 'filed').textContent;
equal('what is filed has the notices and the findings', ['A NOTICE', 'A DIFFERENCE'].map((text) => filed.includes(text)), [true, true]);
equal('what is filed says what is proved', [/Proved: the verdict/.test(filed), /Not proved/.test(filed)], [true, true]);
equal('what is filed has room to sign', ['Office', 'Name', 'Signature'].map((text) => filed.includes(text)), [true, true, true]);

// The page with the signatures names each file with its own sum, and each button saves the form of its own file.
const saved = [];
const links = [];
const made = document.createElement;
document.createElement = (tag) => Object.assign(made(tag), { click() { links.push(this.attributes.download); } });
globalThis.setTimeout = () => {};
const asked = async (kind, question) => {
    saved.push([kind, question]);
    return new Uint8Array(0);
};
const both = recordOf({ files: [file(1, SUMS[0], SUMS[1]), file(2, SUMS[2], SUMS[3])], names: ['a.json', 'b.json'], prefer: null, version: '1',
    pageSum: SUMS[4], verdict: 'V', date: new Date(0), findings: null, notices: [], listed: null }, { ask: asked });
const signed = below(both, 'p').filter(({ attributes }) => attributes?.class === 'signed').map(({ textContent }) => textContent);
equal('what is signed has each file with its sum', signed, [`First file: a.json SHA-256 ${SUMS[0]}`, `Second file: b.json SHA-256 ${SUMS[2]}`]);
const buttons = below(both, 'button').filter(({ textContent }) => /canonical form/.test(textContent) && !/[Cc]opy/.test(textContent));
await Promise.all(buttons.map((one) => one.listeners.click()));
equal('each button saves the form of its file', [buttons.map(({ textContent }) => textContent), saved],
    [['Save the canonical form of the first file', 'Save the canonical form of the second file'], [['canonical', { index: 0 }], ['canonical', { index: 1 }]]]);
equal('under the name of its file', links, ['a.canonical.json', 'b.canonical.json']);

// What is saved of many files is a table for each program: a cell with a comma, a quotation mark or an end of a line is one cell (RFC 4180),
// and none is a formula.
equal('a table as CSV', csvOf([['file', 'notes', 'faults'], ['a "b", c.json', 'one\ntwo', 3], ['=1+1.json', '', ''], ['d.json', 'one\rtwo', 0]]),
    'file,notes,faults\r\n"a ""b"", c.json","one\ntwo",3\r\n\'=1+1.json,,\r\nd.json,"one\rtwo",0\r\n');

// Letters that nobody would see are marks, in every text of a file, and a text that is cut says so.
for (const [name, text, shown] of [['a zero-width space', 'a\u200bb', 'aU+200Bb'], ['another direction', '\u202eb', 'U+202Eb'], ['a no-break space', 'a\u00a0b', 'aU+00A0b'],
    ['a Hangul filler', 'a\u3164', 'aU+3164'], ['a tag', '\u{e0041}', 'U+E0041'], ['a plain text', 'Señor Núñez', 'Señor Núñez']]) {
    equal(`hidden letters: ${name}`, theirs(text).textContent, shown);
}
const cut = long('x'.repeat(50), 10);
equal('a text that is cut says so', [cut.textContent.startsWith(`${'x'.repeat(10)}…`), /all|50/.test(below(cut, 'button')[0]?.textContent ?? '')], [true, true]);
counts();
