// Tries what the page shows of answers that are written out here: verdicts with their sentences, notices, differences, ballots,
// faults and copies. tests/page/shown.txt has by hand the lines that a person reads of each. One line for each case that fails;
// at the end stand the counts.
import { readFileSync } from 'node:fs';
import { below } from './elements.mjs';
import { BallotSentences, findingSentence } from '../../web/scripts/ballot_sentences.mjs';
import { ballotShown } from '../../web/scripts/ballot_view.mjs';
import { cardOf } from '../../web/scripts/card.mjs';
import { differenceEntry, firstDifference, insideSentence, useExplanations } from '../../web/scripts/comparison.mjs';
import { differenceList, ownOffer, ownSentence, typeOffer } from '../../web/scripts/difference_list.mjs';
import { FaultCards, where } from '../../web/scripts/faults.mjs';
import { differencesFiled, faultsFiled } from '../../web/scripts/findings.mjs';
import { convertedLines, convertedNotices, convertedSentence, savedName } from '../../web/scripts/from_xml/shown.mjs';
import { ManyFiles } from '../../web/scripts/many.mjs';
import { envelopeTable, fileNotices, notesNotice, sameBytesNotice } from '../../web/scripts/notices.mjs';
import { claimNotice, CopyMaker, copyName, copyRecorded } from '../../web/scripts/prepare_copy.mjs';
import { troublesOf } from '../../web/scripts/refused.mjs';
import { seenBox } from '../../web/scripts/seen_box.mjs';
import { banner, sentencesOn, verdictOf } from '../../web/scripts/verdict.mjs';
import { counts, equal, ROOT } from './counted.mjs';

globalThis.navigator ??= { hardwareConcurrency: 1 };
const NAMES = ['a.json', 'b.json'];
const BLOCKS = ['p', 'li', 'h2', 'h3', 'h4', 'td', 'th', 'dt', 'dd', 'summary', 'caption', 'legend', 'button'];
useExplanations({ alike: {} });

/** The lines that a person reads of a node: one for each heading, paragraph, cell or button. A cell may be empty. */
function linesOf(node) {
    if (node === null || node === undefined) {
        return [];
    }
    if (typeof node === 'string') {
        return node.trim() === '' ? [] : [node.trim()];
    }
    if (Array.isArray(node)) {
        return node.flatMap(linesOf);
    }
    if (node.tag === 'td' && node.textContent === '') {
        return ['–'];
    }
    return hasBlocks(node) ? node.children.flatMap(linesOf) : linesOf(node.textContent);
}

function hasBlocks(node) {
    return node.children.some((child) => typeof child !== 'string' && (BLOCKS.includes(child.tag) || hasBlocks(child)));
}

// ---- verdicts and notices

const ACCEPTED = { outcome: 'accepted' };
const judged = (files, comparison = null) => {
    const answer = { files, comparison };
    const shown = banner(verdictOf(answer), ...sentencesOn(answer, NAMES, files.map(() => undefined)).filter((node) => node !== null));
    return [shown.attributes.class, shown];
};
const VERDICTS = {
    'an accepted file': judged([ACCEPTED]),
    'a refused file of results': judged([{ outcome: 'refused', faults: 2, status: 'certified' }]),
    'a file that is too long': judged([{ outcome: 'tooLong', size: 67108865 }]),
    'two files, one of which is not JSON': judged([{ outcome: 'notJson' }, ACCEPTED]),
    'two files that say the same': judged([ACCEPTED, ACCEPTED], { same: true }),
    'two files that differ': judged([ACCEPTED, ACCEPTED], { same: false }),
    'no memory for two files': judged([ACCEPTED, ACCEPTED], { noMemory: true }),
};
const TWICE = Array.from({ length: 12 }, (_, at) => ({ pointer: `/a/${at}`, times: at + 2 }));
const NOTICES = {
    envelopes: envelopeTable([{ Issuer: 'A', Notes: 'x' }, { Issuer: 'A', Notes: 'y', SequenceEnd: '1' }], NAMES),
    'notes that differ': notesNotice([{ Notes: 'x' }, {}], NAMES),
    'notes that are equal, and none': [notesNotice([{ Notes: 'x' }, { Notes: 'x' }], NAMES), notesNotice([{}, {}], NAMES)],
    'notices on a file': fileNotices({ isTest: true, types: ['fips'], repeated: TWICE }, 'a.json', 0, 'ocd-id'),
    'no notices on a file': [fileNotices({ isTest: false, types: ['fips'], repeated: [] }, 'a.json', 0, 'fips'),
        fileNotices({ isTest: false, types: ['fips'], repeated: TWICE.slice(0, 0) }, 'a.json', 0, null)],
    'one file twice': sameBytesNotice([{ sha256: 'a' }, { sha256: 'a' }]),
    'two files, and one': [sameBytesNotice([{ sha256: 'a' }, { sha256: 'b' }]), sameBytesNotice([{}, {}]), sameBytesNotice([{ sha256: 'a' }])],
};

// ---- what a voter sees

const LEFT_OUT = [{ part: 'office', how: 'member', member: 'Name', count: 2 }, { part: 'person', how: 'only left', member: null, count: 1 },
    { part: 'party', how: 'other class', member: null, count: 1 }];
const NO_BALLOT = [{ part: 'unit', how: 'member', member: 'IsDistricted', count: 3 }];
const seen = (differing, all, leftOut, count, listed, unseen = 0) => {
    const shown = seenBox({ count, listed, seen: { ballots: { differing, all }, leftOut, unseen, noBallot: NO_BALLOT } });
    return [shown.attributes.class, linesOf(shown).slice(0, -1)];
};
const SEEN = {
    'ballots that differ': seen(2, 5, [], 3, 3),
    'one ballot that differs': seen(1, 5, [], 3, 3),
    'nothing that a voter sees': seen(0, 5, [], 3, 3, 3),
    'equal ballots, and what they leave out': seen(0, 5, LEFT_OUT, 3, 3),
    'no ballots, and what they leave out': seen(0, 0, LEFT_OUT, 3, 3),
    'equal ballots, and a part of the differences': seen(0, 5, [], 30, 20),
    'more than is named': seen(0, 5, Array.from({ length: 14 }, (_, at) => ({ ...LEFT_OUT[0], count: 14 - at })), 105, 105),
};

// ---- differences

const KEY = ['local-level', '', 'K-1'];
const line = (text) => ({ text });
const VOTES = { part: 'contest', key: KEY, how: 'member', member: 'VotesAllowed', titles: ['Mayor', 'Mayor'], classes: ['CandidateContest', 'CandidateContest'],
    there: [true, true], lacking: [false, false], rows: [{ left: line('1'), right: line('2'), same: false }] };
const INSIDE = { part: 'contest', key: KEY, how: 'member', member: 'ContestSelection', titles: ['Mayor', 'Mayor'] };
const DIFFERENCES = {
    'a member': VOTES,
    'only left': { part: 'candidate', key: KEY, how: 'only left', titles: ['Ann', null], classes: ['Candidate', null] },
    'only right': { part: 'candidate', key: KEY, how: 'only right', titles: [null, 'Bo'], classes: [null, 'Candidate'] },
    'another class': { part: 'party', key: KEY, how: 'other class', titles: ['Blue', 'Blue'], classes: ['Party', 'Coalition'] },
    'a member that one file lacks': { ...VOTES, part: 'unit', key: null, member: 'Odd', titles: [null, null], classes: ['ReportingUnit', 'ReportingUnit'],
        there: [true, false], lacking: [false, true], rows: [{ left: line('x'), right: null, same: false }] },
    'equal lines and more': { ...VOTES, rows: [{ equal: 7 }, { left: line('A'), right: line('B'), same: false },
        { left: line('C'), right: line('C'), same: true }, { more: 5 }] },
    'some of what differs inside': { ...INSIDE, inside: { part: 'contest', count: 3, entries: [{ how: 'only left', name: 'Ann' }] } },
    'what differs inside is not told': { ...INSIDE, inside: null },
    'values of selections': { ...INSIDE, inside: { part: 'contest', count: 4, entries: [
        { how: 'only right', name: 'Ann' }, { ...VOTES, member: 'Note', name: 'Bo', rows: [{ left: line('3'), right: line('4'), same: false }] },
        { ...VOTES, member: 'IsWriteIn', name: 'Cy', there: [false, true], lacking: [true, false], rows: [{ left: null, right: line('true'), same: false }] },
        { how: 'member', member: 'Note', name: 'Di', isTooLong: true }] } },
    'what differs on a ballot': { ...INSIDE, part: 'style', member: 'OrderedContent', inside: { part: 'style', count: 4, entries: [
        { how: 'changed', name: 'Units' }, { how: 'removed', name: 'Contest' }, { how: 'added', name: 'Header' }, { how: 'moved', name: 'Selection: Ann' }] } },
    'a ballot whose lines are the same': { ...INSIDE, part: 'style', member: 'OrderedContent', inside: { part: 'style', count: 0, entries: [] } },
};
const ENTRIES = Object.values(DIFFERENCES).slice(0, 4);
const numbered = (number) => ({ ...ENTRIES[number], number, print: 'words' });
const TALLIES = [{ part: 'contest', differ: 1, members: 3, 'only left': 0, 'only right': 0 },
    { part: 'candidate', differ: 0, members: 0, 'only left': 1, 'only right': 2 }];
const LISTED = { count: 4, listed: 4, tallies: TALLIES, seen: {}, kinds: [{ count: 3 }, { count: 1 }] };
// A client answers what it is asked, and nothing else.
const answering = (answers) => ({ ask: async (kind, question) => answers[kind](question) });
const lister = (all) => answering({ more: ({ from, count }) => ENTRIES.slice(from, Math.min(all, from + count)).map((_, at) => numbered(from + at)) });
const own = (types, count) => ownSentence({ types, count });
const entryOpened = (difference) => {
    const entry = differenceEntry(difference, NAMES);
    below(entry, 'details')[0].listeners.toggle();
    return entry;
};
const LISTS = {
    'inside selections': [{ how: 'member', member: 'SequenceOrder', name: 'Ann' }, { how: 'only left', name: 'Ann' }, { how: 'only right', name: 'Ann' }]
        .map((one) => insideSentence(one, NAMES)),
    'an entry of the list with values of selections': entryOpened(DIFFERENCES['values of selections']),
    'an entry of the list without values': entryOpened(DIFFERENCES['some of what differs inside']),
    'the list': await differenceList(lister(4), LISTED, NAMES),
    'a part of the list': await differenceList(lister(4), { ...LISTED, count: 9, tallies: [] }, NAMES),
    'a list that was miscounted': await differenceList(lister(4), { ...LISTED, kinds: [{ count: 5 }], tallies: [], seen: null }, NAMES),
    'one difference alone': await differenceList(lister(4), { ...LISTED, count: 1 }, NAMES),
    'filed differences': differencesFiled([numbered(0), numbered(1)], { count: 5, listed: 5 }, NAMES),
    'filed differences of a part': differencesFiled([numbered(2)], { count: 9, listed: 5 }, NAMES),
    'filed differences inside': differencesFiled([{ ...DIFFERENCES['what differs on a ballot'], number: 0 },
        { ...DIFFERENCES['a ballot whose lines are the same'], number: 1 }], { count: 2, listed: 2 }, NAMES),
    'filed values of selections': differencesFiled([{ ...DIFFERENCES['values of selections'], number: 0 },
        { ...DIFFERENCES['some of what differs inside'], number: 1 }], { count: 2, listed: 2 }, NAMES),
    'filed values of many lines': differencesFiled([{ ...INSIDE, number: 0, inside: { part: 'contest', count: 3, entries: [
        { ...VOTES, member: 'Note', name: 'Bo', rows: [...['A', 'B', 'C', 'D'].map((one) => ({ left: line(one), right: null, same: false })), { more: 5 }] }] } }],
    { count: 1, listed: 1 }, NAMES),
    'filed values without a line': differencesFiled([{ ...VOTES, number: 0, there: [false, true], lacking: [true, true], rows: [] }],
        { count: 1, listed: 1 }, NAMES),
    'filed faults': faultsFiled(['/a: wrong kind', '/b: repeated'], 7, 'a.json'),
    'all faults are filed': faultsFiled(['/a: wrong kind'], 1, 'a.json'),
    'the offer of an own view': ownOffer([['fips'], []], NAMES, () => {}),
    'no offer': ownOffer([[], []], NAMES, () => {}),
    'own views': [own([['fips'], ['x']], 0), own([['fips'], []], 3), own([[], ['x']], null)],
    'the offer of a type': typeOffer({ type: 'ocd-id', fewer: 1, count: 9 }, () => {}),
};

// ---- ballots

const FINDING = { kind: 'contest', subject: 'Mayor', count: 2, all: 5 };
const FINDINGS = [
    { ...FINDING, what: 'removed' }, { ...FINDING, what: 'added' }, { ...FINDING, what: 'moved' },
    { ...FINDING, subject: '', kind: 'header', what: 'changed' }, { ...FINDING, what: 'renamed' },
    { ...FINDING, what: 'choice.removed', choice: 'Ann' }, { ...FINDING, what: 'choice.added', choice: 'Ann' },
    { ...FINDING, what: 'choice.moved', choice: 'Ann' }, { ...FINDING, what: 'choice.renamed', choice: 'Ann' },
    { ...FINDING, what: 'choice.words', choice: 'Ann', role: 'party', left: 'Blue', right: '' },
    { ...FINDING, what: 'words', role: 'votes', left: '1', right: '2' },
    { ...FINDING, what: 'words', role: 'FullText', left: '', right: 'x' },
];
const words = (role, text, mark = '') => ({ role, own: false, texts: [{ lang: '', pieces: [{ text, mark }] }] });
const choice = (text, mark = '', more = {}) => ({ mark, lines: [words('name', text)], ...more });
const contest = (title, more) => ({ kind: 'contest', mark: '', depth: 0, first: 0, lines: [words('title', title)], unlisted: false, ordered: true, ...more });
// A sentence that is true of thirty ballots names some of them, and shows the first.
const opened = document.createElement('div');
const STYLES = Array.from({ length: 14 }, (_, at) => ({ key: `k${at}`, code: `S${at}`, units: [`Precinct ${at}`, 'East'] }));
await new BallotSentences(answering({ ballot: ({ key }) => ({ lines: [words('election', `The ballot of ${key}`)], items: [] }) }), () => {})
    .open({ styles: STYLES, count: 30 }, opened);
const BALLOTS = {
    'the ballots of a sentence': opened,
    'sentences on the ballots': FINDINGS.map((one) => findingSentence(one)),
    'a ballot of two files': ballotShown({ lines: [words('election', 'General')], items: [
        contest('Mayor', { lines: [words('title', 'Mayor'), words('votes', 'Vote for 1', 'added'), words('party', 'Blue', 'removed')],
            selections: [choice('Ann', 'removed'), choice('Bo', 'added'), choice('Cy', 'moved', { from: 1, to: 3 }),
                choice('Di', 'moved', { from: 2, to: 2 }), choice('Ed', '', { renamed: true })] }),
        contest('Bond', { mark: 'removed', lacking: ['es', ''], unlisted: true, selections: [choice('Yes'), choice('No')] }),
        contest('Judge', { ordered: false, selections: [choice('Yes')] }), contest('Clerk', { unlisted: true, selections: [choice('Yes')] })] }),
    'a ballot with nothing on it': ballotShown({ lines: [], items: [] }),
};

// ---- faults, copies and what was converted

const PLACES = Array.from({ length: 10 }, (_, at) => ({ trail: [], pointer: `/p${at}`, excerpt: null }));
const FIXES = Object.fromEntries(['2', '15', 'not JSON'].map((reason) => [reason,
    { meaning: [[`It means ${reason}.`]], fixing: [['Fix ', { code: reason }]], origin: [[`It comes from ${reason}.`]] }]));
const KINDS = { kinds: [{ reason: 2, count: 12, names: [['Name', 11], ['Type', 1]] }, { reason: 15, count: 1, names: [] }], told: 13 };
const client = answering({ kinds: ({ index }) => [KINDS][index], places: ({ index, from, count }) => [PLACES][index].slice(from, from + count) });
const CONVERTED = { isBorn: false, sha256: 'a'.repeat(64), form: { sha256: 'b'.repeat(64), size: 9 }, allTold: 12,
    told: [{ place: '/X', line: 4, key: 'element', name: '' }, { place: '/Y', line: null, key: 'attribute', name: 'q' }] };
const XML = { name: 'a.xml', index: 0, client: null, isRefused: false };
const COPY = { name: 'x.json', original: 'c'.repeat(64), converted: true, steps: [{ name: 'nulls', count: 1200 }, { name: 'odd', count: 1 },
    ...['kinds', 'counts', 'names', 'codes', 'party-lines'].map((name, at) => ({ name, count: at + 2 }))] };
const maker = new CopyMaker(client, { index: 0, names: ['x.raw.json'], files: [], isPair: false, takesCopies() {} });
// What is judged when a copy is to be checked: of two files the copy of the one, or copies of both. Where no step changes the second file,
// that is its own copy.
const taken = [];
for (const [index, changes] of [[0, [1, 1]], [1, [1, 1]], [1, [1, 0]]]) {
    const two = new CopyMaker(client, { index, names: ['a.raw.json', 'b.json'], files: [{ name: 'a.raw.json' }, { name: 'b.json' }], isPair: true,
        takesCopies: (files) => taken.push(files.map(({ name }) => name).join(' ')) });
    two.steps = () => ['nulls'];
    two.asked = async (kind, { index: at, steps }) => ({ bytes: new Uint8Array(1), name: kind, steps: steps.slice(0, changes[at]) });
    await two.check();
    await two.checkBoth();
}
const STEP = { name: 'nulls', done: true, count: 0, made: [], leftCount: 0, left: [] };
const PLACE = { trail: [], pointer: '/a' };
const OVERVIEW = { counts: { style: 2, contest: 1, candidate: 0, party: 3, office: 0, person: 0, header: 0, unit: 7 },
    precincts: { all: 4, none: 1, several: 2 }, unlisted: { count: 3, names: [] },
    unprinted: { count: 2, kinds: [] } };
const FINE = { ...OVERVIEW, precincts: { all: 4, none: 0, several: 0 }, unlisted: { count: 0, names: [] },
    unprinted: { count: 0 } };
const card = (overview, languages, sums) => cardOf({ client: answering({ overview: () => overview, languages: () => languages }), tell() {},
    isLarge: false, sums });
const GENERAL = { name: 'General', start: '2026-11-03', end: '2026-11-04', type: 'general' };
const OTHERS = {
    'a place': where({ pointer: '/Election/0', name: 'Name', trail: [{ name: 'Election', number: 1, title: 'General' },
        { name: 'Odd', number: null, title: null }, { name: 'Odd', number: 2, title: null }, { name: null, number: 3, title: null }] }),
    'the place of the report': where({ trail: [], pointer: '', name: undefined }),
    'cards of faults': await new FaultCards(client, FIXES, { index: 0, name: 'a.json', count: 14 }).section(),
    'files that are not JSON': await troublesOf([{ outcome: 'notJson', trouble: { why: 'endsEarly', line: 3, column: 9 } }, ACCEPTED,
        { outcome: 'notJson', trouble: { why: 'byteOrderMark' } }], ['a.json', 'b.json', 'c.json'], client, { fixes: FIXES, chosen: [], takesCopies() {} }),
    'what was converted': [convertedSentence(CONVERTED, 'a.xml'), convertedSentence({ ...CONVERTED, isBorn: true }, 'a.json'),
        convertedSentence(undefined, 'a.json'), convertedLines(CONVERTED), convertedLines({ ...CONVERTED, allTold: 0 }),
        convertedLines({ why: 'doctype' }), savedName('a.xml', CONVERTED), savedName('a.JSON')],
    'notices on what was converted': convertedNotices(CONVERTED, XML),
    'all was understood': convertedNotices({ ...CONVERTED, allTold: 0, told: [] }, { ...XML, client: {} }),
    'what was not converted': [convertedNotices({ why: 'noSuchJson' }, { ...XML, isRefused: true }), convertedNotices({ why: 'noSuchJson' }, XML)],
    'a copy that says so': claimNotice(COPY),
    'the record of a copy': copyRecorded(COPY),
    'steps of a copy': [copyName('x.raw.json'),
        maker.step({ ...STEP, count: 2, made: [{ ...PLACE, before: 'null', after: null }], leftCount: 1, left: [{ why: 'noName', ...PLACE }] }),
        maker.step({ ...STEP, name: 'counts', count: 1, made: [{ ...PLACE, before: '0', after: null }] }),
        maker.step({ ...STEP, name: 'names', done: false }), maker.group('visible', []), maker.group('removed', [STEP])],
    'files that are judged in place of others': taken,
    'the card of a file': await card(OVERVIEW, ['es', 'en'], { elections: [GENERAL], isTest: true, envelope: { SequenceStart: '1', SequenceEnd: '2' } }),
    'the card of a file without trouble': await card(FINE, [], { elections: [{ ...GENERAL, end: GENERAL.start, type: 'odd' }], isTest: false,
        envelope: { SequenceStart: '1', SequenceEnd: '1' } }),
};

// ---- many files, two of which mean the same and have other bytes

const surveyOf = (sum, more = {}) => ({ outcome: 'accepted', sha256: `0${sum}`.repeat(32), canonical: { size: 1, sha256: sum.repeat(64) }, repeated: 0,
    isTest: false, notes: null, converted: null, ...more });
const SURVEYS = {
    'a.json': surveyOf('a'), 'b.json': surveyOf('b', { isTest: true, notes: 'first' }), 'c.json': surveyOf('b', { sha256: '0c'.repeat(32), repeated: 2 }),
    'd.xml': surveyOf('d', { converted: CONVERTED }), 'e.json': { outcome: 'refused', faults: 12, repeated: 0, isTest: false, notes: null, converted: null },
    'f.json': { outcome: 'notJson', repeated: 0, isTest: false, notes: null, converted: null },
};
const compared = [];
const many = new ManyFiles(document.createElement('div'), [...Object.keys(SURVEYS).map((name, at) => ({ file: { name, size: 1000 - at }, name })),
    { file: { name: 'g.txt', size: 5 }, name: 'g.txt', isLeftOut: true }], {
    client: { ...answering({ survey: ({ file, prefer }) => (prefer === 'fips' ? SURVEYS[file.name] : null) }), another: () => {
        throw new Error('no worker but this one');
    }, leave() {} },
    judgedFile: async (file) => ({ file }), compare: (files) => compared.push(files.map(({ name }) => name)), say() {},
});
await many.judge('fips', () => {}, () => true);
equal('shown: many files: each has its row at once', below(many.table, 'tr').length, 7);
const heads = () => linesOf(many.table).filter((text) => /^[a-g]\.(json|xml|txt)$/.test(text)).join(' ');
const MANY = { 'many files': [...many.holder.children], 'many files as CSV': many.records().map((cells) => cells.join(' | ')) };
const orders = [0, 1, 1, 2, 3].map((column) => {
    many.sort(column);
    return heads();
});
[5, 0, 0, 4, 1].forEach((row) => many.choose(many.rows[row]));
Object.assign(MANY, { 'many files in other orders': orders, 'files that are compared': compared.map((two) => two.join(' ')) });

// ---- the lines by hand

/** The lines of each case. */
function wantedLines() {
    const parts = readFileSync(new URL('tests/page/shown.txt', ROOT), 'utf8').split(/^== (.*)\n/m).slice(1);
    return new Map(parts.flatMap((name, at) => (at % 2 === 0 ? [[name, parts[at + 1].split('\n').filter((one) => one !== '')]] : [])));
}

const shown = { ...VERDICTS, ...NOTICES, ...SEEN, ...LISTS, ...BALLOTS, ...OTHERS, ...MANY,
    ...Object.fromEntries(Object.entries(DIFFERENCES).map(([name, one]) => [`a difference: ${name}`, firstDifference(one, NAMES)])) };
const wanted = wantedLines();
for (const [name, node] of Object.entries(shown)) {
    const [found, hand] = [linesOf(node), wanted.get(name) ?? []];
    const at = found.findIndex((one, place) => one !== hand[place]);
    equal(`shown: ${name}`, at < 0 ? found.slice(hand.length) : found[at], at < 0 ? hand.slice(found.length) : hand[at] ?? null);
}
equal('shown: each case has its lines', [...wanted.keys()].filter((name) => !Object.hasOwn(shown, name)), []);
counts();
