// Tries further parts of the page without a browser: an excerpt of a file, the steps of a copy, the precincts of a card, what ballots show, and how
// XML is read with a reader that stands here. One line for each case that fails; at the end stand the counts.
import { below } from './elements.mjs';
import { aligned } from '../../web/scripts/alignment.mjs';
import { cardOf } from '../../web/scripts/card.mjs';
import { markIn, withMark } from '../../web/scripts/copy_mark.mjs';
import { Differences } from '../../web/scripts/difference_groups.mjs';
import { excerptOf, Lines } from '../../web/scripts/excerpt.mjs';
import { excerptShown } from '../../web/scripts/excerpts.mjs';
import { judgedFile } from '../../web/scripts/from_xml/files.mjs';
import { readXml } from '../../web/scripts/from_xml/reading.mjs';
import { whyAlike } from '../../web/scripts/look_alikes.mjs';
import { otherFile } from '../../web/scripts/other_file.mjs';
import { CopyMaker } from '../../web/scripts/prepare_copy.mjs';
import { trailOf } from '../../web/scripts/trail.mjs';
import { unprintedIn } from '../../web/scripts/unprinted.mjs';
import { passageOf } from '../../web/scripts/visible.mjs';
import { useTexts } from '../../web/scripts/texts.mjs';
import { counts, equal, TEXTS } from './counted.mjs';

const wait = () => new Promise((resolve) => setTimeout(resolve, 5));
const texts = (node, tag) => below(node, tag).map(({ textContent }) => textContent);

// ---- lines beside each other: as many in one row as a search through all ways finds, each in its order

function mostInCommon(left, right) {
    if (left.length === 0 || right.length === 0) {
        return 0;
    }
    return left[0] === right[0] ? 1 + mostInCommon(left.slice(1), right.slice(1))
        : Math.max(mostInCommon(left.slice(1), right), mostInCommon(left, right.slice(1)));
}
let seed = 7;
const dice = (sides) => {
    seed = (seed * 1103515245 + 12345) % 2147483648;
    return Math.floor(seed / 65536) % sides;
};
const lettersOf = () => Array.from({ length: dice(8) }, () => 'abcd'[dice(4)]);
const wrongRows = Array.from({ length: 400 }, () => [lettersOf(), lettersOf()]).filter(([left, right]) => {
    const rows = aligned(...[left, right].map((letters) => letters.map((text) => ({ text, like: text }))));
    const back = ['left', 'right'].map((side) => rows.map((row) => row[side]).filter((line) => line !== null).map(({ text }) => text).join(''));
    return back.join() !== [left, right].map((letters) => letters.join('')).join() || rows.filter(({ same }) => same).length !== mostInCommon(left, right);
});
equal('lines beside each other', wrongRows, []);

// ---- a long text, a trail, a mark, and letters that look alike

const piece = (text, changed = false) => ({ text, changed });
equal('a long text: what differs, with some words around it',
    passageOf([piece('x'.repeat(90)), piece('NEW', true), piece('y'.repeat(90)), piece('z'.repeat(300), true)]),
    `…${'x'.repeat(40)}NEW${'y'.repeat(40)}…${'y'.repeat(40)}${'z'.repeat(200)}…`);
const found = (members) => ({ title: (steps, name) => (steps === 2 ? members[name] : undefined) });
const inTwo = { Text: [{ Language: 'es', Content: 'Sí' }, { Language: 'en-US', Content: 'Yes' }] };
const OBJECTS = [{ Selection: 'Yes' }, { Name: inTwo }, { LastName: 'Elm' }, { Type: 'fips', Value: '20' }, {}];
equal('a trail: what an object is called', OBJECTS.map((members) => trailOf(found(members), ['Contest', 0])),
    ['Yes', 'Yes', 'Elm', 'fips 20', null].map((title) => [{ name: 'Contest', number: 1, title }]));
const ORIGIN = { name: 'a, "b".json', original: 'a'.repeat(64), converted: null, steps: [{ name: 'nulls', count: 2 }, { name: 'names', count: 10 }] };
const textOf = (bytes) => new TextDecoder('utf-8', { ignoreBOM: true }).decode(bytes);
const marked = (text, origin = ORIGIN) => textOf(withMark(new TextEncoder().encode(text), origin));
const LINE = `Prepared by erd from ${JSON.stringify(ORIGIN.name)} (SHA-256 ${ORIGIN.original}): nulls 2, names 10.`;
const REPORTS = ['{"a":1,"Notes":"é"}', '{"a":1}', '{}', '[1]', '{"Notes":7}'];
equal('a mark: behind the notes, and where there are none', REPORTS.map((text) => marked(text)), [
    `{"a":1,"Notes":${JSON.stringify(`é\n${LINE}`)}}`, `{"Notes": ${JSON.stringify(LINE)},"a":1}`, `{"Notes": ${JSON.stringify(LINE)}}`,
    '[1]', '{"Notes":7}']);
equal('a mark: it is read again', [markIn(`x\n${LINE}`), markIn('x'), markIn(undefined)], [{ ...ORIGIN, converted: false }, null, null]);
const PAIRS = ['AΑАＡ', 'BΒВＢ', 'CСＣ', 'EΕЕＥ', 'HΗНＨ', 'IΙІＩ', 'JЈＪ', 'KΚКＫ', 'MΜМＭ', 'NΝＮ', 'OΟОＯ', 'PΡРＰ', 'SЅＳ', 'TΤТＴ',
    'XΧХＸ', 'aаａ', 'cсｃ', 'eеｅ', 'iіｉ', 'jјｊ', 'oοоｏ', 'pрｐ', 'sѕｓ', 'xхｘ', 'yуｙ', '6б６', '3З３'];
equal('letters of other alphabets look like ours', PAIRS.flatMap(([own, ...others]) => others
    .filter((other) => !whyAlike(`${own}nn`, `${other}nn`).includes('letters'))), []);

// ---- an excerpt

const linesOf = (text) => new Lines(new TextEncoder().encode(text));
equal('excerpt: nothing is cut of a short file', [[0, 1], [2, 3]].map(([start, end]) => excerptOf(linesOf('abc'), start, end))
    .map(({ line, before, marked: own, after, cutBefore, cutAfter }) => [line, before, own, after, cutBefore, cutAfter]),
[[1, '', 'a', 'bc', false, false], [1, 'ab', 'c', '', false, false]]);

const excerpt = { line: 7, before: '    "a": 1,\r\n    ', marked: '"b": [\n      2', left: 0, after: '\n    ]', cutBefore: false, cutAfter: false };
const whole = excerptShown(excerpt, () => {});
equal('excerpt: its lines with their numbers, without the blanks of all', [texts(whole, 'span'), texts(whole, 'code')],
    [['7', '8', '9', '10'], ['"a": 1,', '"b": [', '  2', ']']]);
equal('excerpt: what is spoken of is marked', texts(whole, 'mark'), ['"b": [', '  2']);
equal('excerpt: what a screen reader says', below(whole, 'div')[0].attributes['aria-label'], 'Part of the file, from line 7');
const cut = excerptShown({ ...excerpt, before: 'x', marked: 'y', after: 'z', left: 1200, cutBefore: true, cutAfter: true },
    async () => new TextEncoder().encode('THE PART'));
equal('excerpt: what is cut', [texts(cut, 'code'), texts(cut, 'button')], [['… xy …z …'], ['Show the whole part (1,200 bytes more)']]);
below(cut, 'button')[0].listeners.click();
await wait();
equal('excerpt: the whole part', texts(cut, 'p'), ['THE PART']);

// ---- the steps of a copy

const step = (name, group, more) => ({ name, group, done: true, count: 1, made: [], leftCount: 0, left: [], ...more });
const STEPS = [step('numbers', null, { made: [{ line: 3, column: 9, before: '1.50', after: '1.5' }], count: 2 }), step('nulls', 'removed'),
    step('names', 'filled-in', { done: false }), step('gone-candidates', 'visible', { done: false }), step('unseen', 'view', { done: false, count: 0 })];
const asked = [];
const makerOf = (answer) => new CopyMaker({ ask: async (kind, question) => {
    asked.push(question);
    return typeof answer === 'function' ? answer() : answer;
}, cancel() {} }, { index: 0, files: [{}], names: ['a.json'], isPair: true, takesCopies() {} });
const maker = makerOf(STEPS);
const section = maker.section();
equal('copy: what is offered', [texts(section, 'h3'), texts(section, 'button')],
    [['Prepare a copy of a.json'], ['Prepare a copy', 'Open the letter to the vendor']]);
below(section, 'button')[0].listeners.click();
await wait();
equal('copy: nothing is chosen yet', asked, [{ index: 0, steps: null }]);
equal('copy: the steps by their groups', [texts(section, 'legend'), texts(section, 'strong')], [
    ['Removed: no ballot has it', 'Filled in: what a voter sees stays as it is', 'Changes what a voter sees: look at it before you choose it',
        'For a comparison: leaves out what it is to pass over, and fixes no fault'],
    ['Members without a value', 'Names as identifiers', 'Lines of candidates who are gone', 'Members that no ballot shows']]);
equal('copy: numbers that change', [texts(section, 'summary')[0], below(section, 'ol')[0].textContent, section.textContent.includes('and 1 more')],
    ['2 numbers are written in another way in the copy', 'Line 3, column 9: 1.50 → 1.5', true]);
equal('copy: what is ticked', maker.steps(), ['nulls']);
below(section, 'input')[1].setAttribute('checked', '');
below(section, 'input')[1].listeners.change();
await wait();
equal('copy: what is ticked is asked for', asked.at(-1), { index: 0, steps: ['nulls', 'names'] });
const buttons = () => below(maker.body, 'button').map(({ textContent, attributes }) => `${textContent}${'disabled' in attributes ? ' (off)' : ''}`);
equal('copy: what can be done', buttons(), ['Check the copy', 'Check copies of both files, prepared alike', 'Save the copy', 'Save the list of changes']);
const idle = makerOf([step('nulls', 'removed', { count: 0 })]);
await idle.show([]);
equal('copy: nothing is changed', below(idle.body, 'button').every(({ attributes }) => 'disabled' in attributes), true);
// What takes long says what it does, with a button that ends it.
const ended = [];
const slow = new CopyMaker({ ask: async (_kind, _question, tell) => {
    tell({ stage: 'preparing', done: 1, total: 4 });
    await new Promise((resolve) => setTimeout(resolve, 400));
    return [];
}, cancel: () => ended.push('ended') }, { index: 0, files: [{}], names: ['a.json'], isPair: false, takesCopies() {} });
slow.body.prepend = (node) => slow.body.append(node);
const shownSlow = slow.show(null);
await new Promise((resolve) => setTimeout(resolve, 350));
below(slow.body, 'button')[0].listeners.click();
equal('copy: what takes long', [slow.body.textContent.trim(), below(slow.body, 'progress')[0].value, slow.body.attributes['aria-busy'], ended],
    ['Preparing a copy of a.json  Cancel', 0.25, 'true', ['ended']]);
await shownSlow;
equal('copy: then it is over', [slow.body.attributes['aria-busy'], below(slow.body, 'progress').length], ['false', 0]);
const WHYS = { 'no step': [[], 'No step applies to this file.'], 'no JSON': [null, 'Behind the byte order mark, this file is not JSON.'],
    'an error': [() => Promise.reject(new Error('ODD')), 'No verdict was reached.'] };
for (const [name, [answer, words]] of Object.entries(WHYS)) {
    const one = makerOf(answer);
    await one.show(null);
    equal(`copy: ${name}`, one.body.textContent.startsWith(words), true);
}

// ---- the card of a large file, and its precincts

const ROWS = [{ name: 'North', code: 'P-1', codes: ['S-1', 'S-2'], count: 4 }, { name: 'South', code: 'P-2', codes: [], count: 0 }];
const OVERVIEW = { counts: {}, precincts: { all: 2, none: 1, several: 0 }, unlisted: { count: 3, names: [{ name: 'Mayor', code: 'C-1' }] },
    unprinted: { count: 1, kinds: [{ part: 'unit', how: 'member', member: 'IsMailOnly', count: 2 }] } };
const client = { ask: async (kind, question) => ({ overview: OVERVIEW, languages: ['es', 'en'],
    precincts: (question.group === 'none' ? ROWS.slice(1) : ROWS).slice(question.from, question.from + question.count) })[kind] };
const card = await cardOf({ client, tell() {}, isLarge: true, sums: { elections: [], isTest: false, envelope: {} } });
equal('card: of a large file it is made when it is opened', texts(card, 'dt'), []);
below(card, 'details')[0].listeners.toggle();
await wait();
equal('card: its rows', below(card, 'div').filter(({ children }) => children[0]?.tag === 'dt').map(({ textContent }) => textContent),
    ['Kind of filenot marked as a test', 'Objects2 precincts', 'LanguagesEnglish (en), Spanish (es)']);
const folded = below(card, 'details').slice(1);
equal('card: what is folded', folded.map((one) => below(one, 'summary')[0].textContent), ['1 precinct is on no ballot style', '3 contests are on no ballot',
    'All 2 precincts and their ballot styles', '1 kind of member that no ballot has']);
folded.forEach((one) => one.listeners.toggle());
await wait();
equal('card: precincts without a ballot', [texts(folded[0], 'th'), texts(folded[0], 'td')], [['Precinct', 'Code', 'Ballot styles', 'South'], ['P-2', 'none']]);
equal('card: contests on no ballot, of which some are named', texts(folded[1], 'li'), ['Mayor (C-1)', 'and 2 more']);
equal('card: all precincts, with some of their ballot styles', [texts(folded[2], 'th').slice(3), texts(folded[2], 'td')],
    [['North', 'South'], ['P-1', 'S-1, S-2 and 2 more', 'P-2', 'none']]);
equal('card: members that no ballot has', texts(folded[3], 'li'), ['Units: mark of voting by mail only (IsMailOnly), 2 times']);

// ---- the list of differences, what another file is, and the worker

const NAME = ['ElectionResults.CandidateSelection', [['local-level', '', 'K']], false, null, null, null];
const key = ['local-level', '', 'C'];
const LISTED = [{ part: 'contest', key, how: 'member', member: 'ContestSelection', selections: [{ how: 'only left', name: NAME }] },
    { part: 'contest', key, how: 'member', member: 'NumberRunoff', values: { left: 3, right: 4 } }];
const called = (part) => ({ title: `The ${part}`, words: { Name: `The ${part}` }, selections: new Map() });
const listed = (names) => new Differences(LISTED, 9, () => null, names);
const known = listed([called, called]);
equal('differences: what differs inside, and which values', known.some({ from: 0, count: 2 }).map(({ inside, rows, print, titles }) => (
    [inside?.entries.map(({ how, name }) => `${how} ${name}`), rows?.map(({ left, right }) => `${left.text} ${right.text}`), print, titles])),
[[['only left Candidate “The candidate” (local-level K)'], null, 'words', ['The contest', 'The contest']],
    [null, ['3 4'], 'none', ['The contest', 'The contest']]]);
// What either file has in the members of selections in which they differ, by what the files call the objects that a value names.
const ofSelection = (member, values) => ({ how: 'member', name: NAME, member, ...(values === undefined ? {} : { values }) });
const ours = (part) => ({ ...called(part), title: `Our ${part}` });
const selectionsOf = (...selections) => new Differences([{ ...LISTED[0], selections }], 1, () => null, [called, ours])
    .some({ from: 0, count: 1 })[0].inside.entries;
const P = ['fips', '', 'P'];
const identifiedBy = (Value) => ({ '@type': 'ElectionResults.ExternalIdentifier', Type: 'fips', Value });
equal('selections: what either file has in a member', selectionsOf(ofSelection('Note', { left: 1, right: [2, 'x'] }), ofSelection('IsWriteIn', { left: false }),
    ofSelection('EndorsementPartyIds', { left: [P], right: [P, NAME[1][0]] }),
    ofSelection('ExternalIdentifier', { left: ['1', '2'].map(identifiedBy), right: [identifiedBy('2')] }))
    .map(({ rows, there, lacking }) => [rows.map(({ left, right, same }) => [left?.text, right?.text, same]), there, lacking]),
[[[['1', '1: 2', false], [undefined, '2: “x”', false]], [true, true], [false, false]],
    [[['false', undefined, false]], [true, false], [false, true]],
    [[['Party “The party” (fips P)', 'Party “Our party” (fips P)', true], [undefined, 'Party “Our party” (local-level K)', false]],
        [true, true], [false, false]],
    [[['fips 1', undefined, false], ['fips 2', 'fips 2', true]], [true, true], [false, false]]]);
equal('selections: what differs within two values', selectionsOf(ofSelection('Note', { left: 'since 2018', right: 'since 2020' }))[0].rows[0].pieces.right,
    [piece('“since 20'), piece('20', true), piece('”')]);
equal('selections: values that are too long, those of a selection that one file has, and none', selectionsOf(ofSelection('Note', null),
    { how: 'only left', name: NAME, values: { left: { class: 'ElectionResults.CandidateSelection', members: { IsWriteIn: true } } } }, ofSelection('Note'))
    .map(({ name: _name, ...one }) => one), [{ how: 'member', member: 'Note', isTooLong: true }, { how: 'only left' }, { how: 'member', member: 'Note' }]);
const longNote = (letter) => ofSelection('Note', { left: letter.repeat(24_977), right: letter });
equal('selections: behind values of 50,000 characters none are shown', selectionsOf(...['a', 'b', 'c'].map(longNote))
    .map(({ rows, isTooLong }) => [rows?.length, isTooLong]), [[1, undefined], [1, undefined], [undefined, true]]);
const manyNotes = (first) => Array.from({ length: 30 }, (_, at) => first + at);
equal('selections: of very long values some rows', selectionsOf(ofSelection('Note', { left: manyNotes(0), right: manyNotes(100) }))
    .map(({ rows }) => [rows.length, rows.at(-1)]), [[21, { more: 10 }]]);
equal('differences: those of one kind, and of a record', [known.some({ kind: 1, from: 0, count: 9 }), known.some({ isFiled: true, from: 1, count: 9 })]
    .map((some) => some.map(({ member }) => member)), [['NumberRunoff'], ['NumberRunoff']]);
const { count, listed: number, seen, kinds, tallies } = known.told({ all: 3, differing: 1 });
equal('differences: all together', [count, number, seen.ballots, seen.unseen, kinds.map((kind) => `${kind.member} ${kind.count}`), tallies],
    [9, 2, { all: 3, differing: 1 }, 1, ['ContestSelection 1', 'NumberRunoff 1'], [{ part: 'contest', 'only left': 0, 'only right': 0, differ: 1, members: 2 }]]);
equal('differences: without names, or without ballots, nothing is said of a voter', [listed(null).told({ all: 3, differing: 1 }).seen, known.told(null).seen],
    [null, null]);
const fileOf = (text, place, name) => otherFile(new TextEncoder().encode(text),
    [{ place, reason: name === undefined ? 3 : 2, ...(name === undefined ? {} : { name }) }]);
equal('other files: by their class', [fileOf('{"@type":"CVR.CastVoteRecordReport"}', ['@type']),
    fileOf('{"@type":"BallotDefinition.ElectionReport"}', ['@type']), fileOf('{"@type":"X"}', ['@type']), fileOf('{"a":1}', [], '@type'),
    fileOf('{"@type":["CVR.X"]}', ['@type'])],
['castVotes', 'ballotDefinition', 'noReport', 'noReport', 'noReport']);
equal('other files: what may be a report', [fileOf('{"Election":[]}', [], '@type'), fileOf('{"@type":7,"GpUnit":[]}', ['@type']), fileOf('{}', ['Election']),
    fileOf('{}', [], 'Status')], [null, null, null, null]);
const ASKED = 'begun sums list more betterType ownTypes ownView overview precincts onBallots someOnBallots languages styles ballot kinds places canonical '
    + 'lines firstLines part preparation preparedCopy preparedChanges';
const answered = [];
globalThis.addEventListener = (name, call) => Object.assign(globalThis, { [name]: call });
globalThis.postMessage = (answer) => 'progress' in answer || answered.push(answer);
await import('../../web/scripts/worker.mjs');
const question = (asked, kind, more = {}) => globalThis.message({ data: { number: asked, kind, question: more } });
question(1, 'start', { wasm: Uint8Array.from([0, 0x61, 0x73, 0x6d, 1, 0, 0, 0]), texts: {}, language: 'en' });
question(2, 'open', { files: [], prefer: null, converted: [] });
question(3, 'verdict');
ASKED.split(' ').forEach((kind, at) => question(4 + at, kind, { index: 0 }));
question(99, 'nosuch');
for (let tries = 0; tries < 1000 && answered.at(-1)?.number !== 99; tries++) {
    await wait();
}
await wait();
equal('worker: it begins, takes files and judges them', answered.slice(0, 3),
    [{ number: 1 }, { number: 2 }, { number: 3, answer: { files: [], comparison: null } }]);
equal('worker: it answers each question in its order', answered.map((one) => one.number), [1, 2, 3, ...ASKED.split(' ').map((_, at) => 4 + at), 99]);
equal('worker: it knows each question, and no other', answered.filter(({ error }) => /ANSWERS/.test(error ?? '')).map((one) => one.number), [99]);
useTexts(TEXTS, 'en');

// ---- what the ballots of a file leave out

const filled = (names) => Object.fromEntries(names.split(' ').map((name) => [name, 'x']));
const named = (className, names, others = {}) => ({ '@type': `ElectionResults.${className}`, ...filled(names), ...others });
const FORM = {
    '@type': 'ElectionResults.ElectionReport', ...filled('Status Format'),
    GpUnit: [named('ReportingUnit', 'Name', { IsMailOnly: true }), named('ReportingUnit', 'Name IsDistricted Phone', { IsMailOnly: false })],
    Party: [named('Party', 'Name', { '@id': 'pa1', LeaderPersonIds: ['pe1'] })], Office: [named('Office', 'Name', { IsPartisan: false })],
    Election: [named('Election', 'Name StartDate', {
        Candidate: [named('Candidate', 'BallotName FileDate')],
        Contest: [named('CandidateContest', 'Name NumberRunoff', { ContestSelection: [named('CandidateSelection', 'ExternalIdentifier')] }),
            named('RetentionContest', 'Name', { HasRotation: false })],
        BallotStyle: [named('BallotStyle', 'GpUnitIds PartyIds', {
            OrderedContent: [{ OrderedContent: [{ ContestId: 'co1' }] }], ExternalIdentifier: [{ Type: 'fips', Value: '20' }],
        })],
    })],
};
const wordsOfPart = (part, names, others = {}) => ({ part, words: { ...filled(names), ...others } });
const FORM_WORDS = {
    of: () => new Map([['a', 'the first contest'], ['b', 'the second contest']]),
    entries: [wordsOfPart('unit', 'Name'), wordsOfPart('unit', 'Name Phone'), wordsOfPart('party', 'Name'), wordsOfPart('office', 'Name', { IsPartisan: false }),
        wordsOfPart('election', 'Name StartDate'), wordsOfPart('candidate', 'BallotName'), wordsOfPart('contest', 'Name'), wordsOfPart('contest', 'Name')],
};
const TOLD = unprintedIn(FORM, FORM_WORDS);
equal('a card: members that are no words of their objects, each once', TOLD.members.map(({ part, member, count: some }) => `${part} ${member} ${some}`),
    ['unit IsMailOnly 1', 'unit IsDistricted 1', 'party LeaderPersonIds 1', 'candidate FileDate 1', 'contest NumberRunoff 1']);
equal('a card: contests that no ballot has', TOLD.contests, ['the second contest']);
equal('a card: the election of each style', [...TOLD.elections.values()], [0]);

// ---- XML, by a reader of simple XML

const SPACES = { xsi: 'http://www.w3.org/2001/XMLSchema-instance', xmlns: 'http://www.w3.org/2000/xmlns/' };
class Node {
    constructor(parentNode, more) {
        Object.assign(this, { parentNode, firstChild: null, nextSibling: null, attributes: [], ...more });
        if (parentNode?.lastChild === undefined) {
            Object.assign(parentNode ?? {}, { firstChild: this });
        } else {
            parentNode.lastChild.nextSibling = this;
        }
        Object.assign(parentNode ?? {}, { lastChild: this });
    }

    hasAttributes() {
        return this.attributes.length > 0;
    }

    lookupNamespaceURI(prefix) {
        const own = this.spaces[prefix ?? ''];
        return own ?? this.parentNode?.lookupNamespaceURI?.(prefix) ?? null;
    }

    getElementsByTagName(name) {
        const inner = [];
        for (let node = this.firstChild; node !== null; node = node.nextSibling) {
            inner.push(...node.nodeType === 1 ? [node, ...node.getElementsByTagName('*')] : []);
        }
        return inner.filter(({ localName }) => name === '*' || localName === name);
    }
}
globalThis.DOMParser = class {
    parseFromString(text) {
        let open = null;
        let root = null;
        for (const [, end, tag, attributes, alone, words] of text.matchAll(/<(\/?)([\w:]+)((?:\s+[\w:]+="[^"]*")*)\s*(\/?)>|([^<]+)/g)) {
            if (words !== undefined) {
                open === null || new Node(open, { nodeType: 3, data: words });
            } else if (end !== '') {
                open = open.parentNode;
            } else {
                const said = [...attributes.matchAll(/([\w:]+)="([^"]*)"/g)].map(([, name, value]) => [name, value]);
                const spaces = Object.fromEntries(said.filter(([name]) => name.startsWith('xmlns')).map(([name, value]) => [name.slice(6), value]));
                const node = new Node(open, { nodeType: 1, spaces });
                const [local, prefix] = tag.split(':').reverse();
                Object.assign(node, { localName: local, namespaceURI: node.lookupNamespaceURI(prefix), attributes: said.map(([name, value]) => {
                    const [own, before] = name.split(':').reverse();
                    const space = SPACES[before ?? (own === 'xmlns' ? own : '')];
                    return { localName: own, value, namespaceURI: space ?? (before === undefined ? null : node.lookupNamespaceURI(before)) };
                }) });
                root ??= node;
                open = alone === '' ? node : open;
            }
        }
        return { documentElement: root, doctype: null,
            getElementsByTagName: (name) => (root.localName === name ? [root] : root.getElementsByTagName(name)) };
    }
};
const STANDARD = 'http://itl.nist.gov/ns/voting/1500-100/v';
const xml = (inner, version = 2, more = '') => `<ElectionReport xmlns="${STANDARD}${version}" xmlns:xsi="${SPACES.xsi}" `
    + `xsi:schemaLocation="a b"${more}>${inner}</ElectionReport>`;
const read = async (text, sizes) => {
    const done = [];
    const converter = await readXml(new TextEncoder().encode(text), async (at) => done.push(at), sizes).catch(({ why, values }) => ({ why, values }));
    return { ...converter.why === undefined ? { report: JSON.parse(converter.text), version: converter.version } : converter,
        told: (converter.told ?? []).map(({ place, line, key, name }) => `${place} ${line} ${key} ${name}`.trim()), done };
};
const REPORT = { '@type': 'ElectionResults.ElectionReport' };
const UNIT = { '@type': 'ElectionResults.ReportingUnit' };
equal('XML: a report', [(await read(xml('<Notes>a</Notes>'))).report, (await read(xml('<Notes>a</Notes>'))).told], [{ ...REPORT, Notes: 'a' }, []]);
const STRANGE = xml('\n<Notes>a</Notes>\n<X><Y b="1"/></X>\n<GpUnit xsi:type="ReportingUnit"><Name>U</Name></GpUnit>');
for (const sizes of [{}, { enough: 1 }, { enough: 20, block: 7 }]) {
    const { report, told, done } = await read(STRANGE, sizes);
    equal(`XML: in parts of ${JSON.stringify(sizes)}`, [report, told], [{ ...REPORT, Notes: 'a', X: { Y: { b: '1' } }, GpUnit: [{ ...UNIT, Name: 'U' }] },
        ['/ElectionReport/X 3 element']]);
    equal(`XML: how far it is, in parts of ${JSON.stringify(sizes)}`, [done.at(-1), done.every((at, place) => place === 0 || at >= done[place - 1])],
        [STRANGE.length, true]);
}
equal('XML: the page may do what waits after each part',
    [(await read(STRANGE, { enough: 1 })).done.length, (await read(STRANGE)).done.length], [16, 1]);
equal('XML: version 1', (await read(xml('<PartyCollection><Party/></PartyCollection>', 1))).version, 1);
equal('XML: no namespace', (await read('<ElectionReport/>')).told, ['/ElectionReport 1 noNamespace']);
equal('XML: another root, and another version', [(await read('<Ballot/>')).why, (await read(xml('', 3))).why], ['root', 'root']);
equal('XML: no XML', [(await read('{}')).why, (await read('<!DOCTYPE a><a/>')).why, (await read('<ElectionReport>')).why],
    ['malformed', 'doctype', 'malformed']);
const others = await read(xml('<y:Notes y:b="1">a</y:Notes>', 2, ' xmlns:y="urn:y"'));
equal('XML: an element and an attribute of another namespace', [others.report, others.told], [{ ...REPORT, '{urn:y}Notes': { '{urn:y}b': '1', '#text': 'a' } },
    ['/ElectionReport/{urn:y}Notes 1 element', '/ElectionReport/{urn:y}Notes 1 attribute {urn:y}b']]);
const classNamed = async (name) => (await read(xml(`<GpUnit xsi:type="${name}"/>`, 2, ` xmlns:n="${STANDARD}2" xmlns:y="urn:y"`))).report.GpUnit[0]['@type'];
equal('XML: a class with the prefix of the standard, and with another one', [await classNamed(' n:ReportingUnit '), await classNamed('y:ReportingUnit'),
    await classNamed('z:A')], ['ElectionResults.ReportingUnit', 'ElectionResults.y:ReportingUnit', 'ElectionResults.z:A']);
const wrong = (text, local = 'parsererror') => ({ parseFromString: () => ({ doctype: null, documentElement: null,
    getElementsByTagName: () => [{ localName: local, namespaceURI: 'http://www.w3.org/1999/xhtml', textContent: text }] }) });
const real = globalThis.DOMParser;
for (const [name, text, line] of [['Chromium', 'error on line 3 at column 9', 4], ['Firefox', 'Línea: 2, columna 1', 3],
    ['a browser that tells no line', 'odd', 2]]) {
    globalThis.DOMParser = class {
        constructor() {
            Object.assign(this, wrong(text));
        }
    };
    equal(`XML: where ${name} stops`, [(await read(`\n${xml('')}`)).why, (await read(`${xml('')}`)).values.line], ['malformed', line - 1]);
}
globalThis.DOMParser = real;
const files = async (name, text) => {
    const told = [];
    const file = new File([text], name);
    const judged = await judgedFile(file, (done) => told.push(done));
    return { judged, isSame: judged.file === file, again: await judgedFile(file, () => {}) === judged, told };
};
const plain = await files('a.json', '{}');
equal('XML: a file that is none stays as it is', [plain.isSame, plain.judged.converted, plain.again], [true, null, true]);
const converted = await files('a.xml', xml('<Notes>a</Notes>'));
equal('XML: a file has its form in its place', [converted.isSame, JSON.parse(await converted.judged.file.text()), converted.judged.converted.version,
    converted.again], [false, { ...REPORT, Notes: 'a' }, 2, true]);
equal('XML: its progress is told', converted.told.at(-1), xml('<Notes>a</Notes>').length);
const refused = await files('a.xml', '<Ballot/>');
equal('XML: why a file is not converted', [refused.isSame, refused.judged.converted], [true, { why: 'root', values: {} }]);
counts();
