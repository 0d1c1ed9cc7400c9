// Tries more parts of the page without a browser, on small values: what is found in the bytes of a file, texts, and what values and
// ballots look like. One line for each case that fails; at the end stand the counts.
import { readFileSync } from 'node:fs';
import { pointerOf } from '../../bindings/js/lib/words.mjs';
import { repeatedNames } from '../../bindings/js/lib/repeated.mjs';
import { aligned } from '../../web/scripts/alignment.mjs';
import { BallotFindings } from '../../web/scripts/ballot_findings.mjs';
import { boundedPointer, boundedText } from '../../web/scripts/bounded.mjs';
import { Client } from '../../web/scripts/client.mjs';
import { markIn, withMark, withoutMark } from '../../web/scripts/copy_mark.mjs';
import { whyNotJson } from '../../web/scripts/diagnosis.mjs';
import { Differences, talliesOf } from '../../web/scripts/difference_groups.mjs';
import { headIn } from '../../web/scripts/envelope.mjs';
import { readTree } from '../../bindings/js/lib/tree.mjs';
import { columnsOf } from '../../web/scripts/columns.mjs';
import { compactText, readExactly } from '../../bindings/js/lib/exact.mjs';
import { kindsOf } from '../../web/scripts/fault_kinds.mjs';
import { firstLanguage } from '../../web/scripts/languages.mjs';
import { needsOf } from '../../web/scripts/needs.mjs';
import { foundPlaces } from '../../web/scripts/places.mjs';
import { insideOf } from '../../web/scripts/inside.mjs';
import { areBounded, wordsOf as wordsListed } from '../../web/scripts/report_words.mjs';
import { rowsOfDifference } from '../../web/scripts/rows.mjs';
import { piecesOfBoth } from '../../web/scripts/text_changes.mjs';
import { languageText, say, sayIfKnown } from '../../web/scripts/texts.mjs';
import { trailOf } from '../../web/scripts/trail.mjs';
import { typesIn } from '../../web/scripts/types.mjs';
import { linesOf } from '../../web/scripts/values.mjs';
import { beginningOf, endOf, piecesOf } from '../../web/scripts/visible.mjs';
import { ballotsOf, bytesOf as reportBytes, wordsIn } from './answered.mjs';
import { counts, equal, ROOT, TEXTS } from './counted.mjs';
import { identified, label, typed } from './made.mjs';

const encoder = new TextEncoder();
const bytesOf = (value) => encoder.encode(typeof value === 'string' ? value : JSON.stringify(value));

// ---- why bytes are not JSON, and where

const latin = new Uint8Array(70_003).fill(0x20);
latin.set([0x22, 0xe9, 0x22], 70_000);
const split = new Uint8Array(65_540).fill(0x20);
split.set([0xe2, 0x82, 0x41], 65_534);
const NOT_JSON = {
    'a comma before a bracket': ['[1,]', 'commaBeforeEnd', 3], 'a comma before a brace': ['{"a":1,}', 'commaBeforeEnd', 7],
    'half a pair': ['"\\ud800"', 'halfSurrogate', 1], 'the last half of a pair': ['"\\udfff"', 'halfSurrogate', 1],
    'a zero in front': ['[01]', 'badNumber', 2], 'no colon': ['{"a" 1}', 'colonExpected', 5],
    'a name without quotes': ['{a:1}', 'nameExpected', 1], 'two values': ['1 2', 'moreAfterEnd', 2], 'an early end': ['[1', 'endsEarly', 2],
    'the XML form': ['<?xml version="1.0"?>\n<er:ElectionReport>', 'markup', null], 'UTF-16': [new Uint8Array([0xff, 0xfe, 0x7b, 0]), 'utf16', null],
    'UTF-16, high byte first': [new Uint8Array([0xfe, 0xff, 0, 0x7b]), 'utf16', null], 'Windows-1252': [latin, 'notUtf8', 70_001],
    'a character that is cut between two blocks': [split, 'notUtf8', 65_534], 'a tab in a text': ['"a\tb"', 'controlInText', 2],
    'an end within a character': [new Uint8Array([0x22, 0xe2, 0x82]), 'notUtf8', 1], 'another escape': ['"\\x"', 'unknownEscape', 1], 'half an escape': ['"\\u12"', 'unknownEscape', 1],
};
Object.entries(NOT_JSON).forEach(([name, [text, why, at]]) => equal(`not JSON: ${name}`, whyNotJson(typeof text === 'string' ? bytesOf(text) : text), { why, at }));

// ---- what is found in a file

equal('names written twice', repeatedNames('{"a":{"b":1,"b":2},"c/d":[{"e":1,"e":2,"e":3}]}'),
    [{ place: ['a', 'b'], pointer: '/a/b', times: 2 }, { place: ['c/d', 0, 'e'], pointer: '/c~1d/0/e', times: 3 }]);
equal('a pointer', pointerOf(['a/b', '~c', 0]), '/a~1b/~0c/0');
equal('what the first of two members has is not there', foundPlaces(bytesOf('{"a":{"b":1},"a":{"c":2}}'), [['a', 'b']]), [null]);
equal('types', typesIn(bytesOf('{"ExternalIdentifier":[{"Type":"b"}],"x":"ExternalIdentifier","y":{"ExternalIdentifier":[{"Type":"a"}]}}')), ['a', 'b']);
equal('types in a list of texts', typesIn(bytesOf('["ExternalIdentifier",{"ExternalIdentifier":[{"Type":"a"}]}]')), ['a']);

function titleAt(report, place) {
    const [found] = foundPlaces(bytesOf(report), [place]);
    return trailOf(found, place).map(({ title }) => title);
}

const named = { Unit: [{ Name: { Text: [{ Language: 'es', Content: 'Norte' }, { Language: 'en-US', Content: 'North' }] },
    ExternalIdentifier: [{ Type: 'fips', Value: '20' }] }] };
equal('an English title', titleAt(named, ['Unit', 0]), ['North']);
equal('an identifier on a trail', titleAt(named, ['Unit', 0, 'ExternalIdentifier', 0, 'Value']), ['North', 'fips 20', null]);

const envelope = { Format: 'precinct-contest', GeneratedDate: '2026-09-14T08:30:00-06:00', Issuer: 'An "office"', IssuerAbbreviation: 'AO',
    VendorApplicationId: 'V 1', Notes: 'One\nTwo', SequenceStart: 1, SequenceEnd: 18446744073709551615n,
    ExternalIdentifier: [{ Type: 'other', OtherType: 'job', Value: '7' }, { Type: 'fips', Value: '9' }] };
equal('the envelope', headIn(bytesOf(compactText({ Election: [], ...envelope }))).envelope,
    { ...envelope, SequenceStart: '1', SequenceEnd: '18446744073709551615', ExternalIdentifier: 'other job 7\nfips 9' });
equal('no envelope', headIn(bytesOf('{"Election":[]}')), { envelope: {}, isTest: false, elections: [] });

const faults = [{ place: ['a', 'OtherCounts'], reason: 5 }, { place: ['b', 'VoteCounts'], reason: 5 }, { place: ['c', 'VoteCounts'], reason: 5 }];
equal('the member that occurs most is first', kindsOf(faults).map(({ names }) => names), [[['VoteCounts', 2], ['OtherCounts', 1]]]);
equal('places stay in their order', kindsOf(faults)[0].faults.map(({ place }) => place[0]), ['a', 'b', 'c']);

for (const text of ['9007199254740993', '-9007199254740993', '{"a":[18446744073709551615]}', '9007199254740992']) {
    equal(`the number ${text}`, compactText(readExactly(bytesOf(text))), text);
}

// ---- texts

equal('one', say('faults.times', { count: 1 }), '1 time');
equal('many', say('faults.times', { count: 12345 }), '12,345 times');
equal('a text in a text', say('value.quoted', { text: '1234' }), '“1234”');
equal('languages for a reader', ['es', 'xx-none-', 'en-US'].map(languageText),
    ['Spanish (es)', 'xx-none-', 'American English (en-US)']);
equal('no text', sayIfKnown('nothing'), undefined);
equal('a language with a region', firstLanguage(['en', 'es'], ['fr-CA', 'es-MX', 'en'], 'en'), 'es');
equal('no language that the page has', firstLanguage(['en', 'es'], ['de'], 'en'), 'en');
equal('a format is marked', piecesOf('a\ufff9b\u00a0'), [{ text: 'a' }, { mark: 'U+FFF9' }, { text: 'b' }, { mark: 'U+00A0' }]);
equal('a beginning and an end', [beginningOf('a\u{1f5f3}', 2), endOf('\u{1f5f3}a', 2), beginningOf('abc', 2), endOf('abc', 2)], ['a', 'a', 'ab', 'bc']);

const marked = (pieces) => pieces.map(({ text, changed }) => (changed ? `[${text}]` : text)).join('');
for (const [left, right, wantedLeft, wantedRight] of [['aa', 'aaa', 'aa', 'aa[a]'], ['Jose\u0301', 'Jose\u0300', 'Jos[e\u0301]', 'Jos[e\u0300]'],
    ['Vote for one', 'Vote for two', 'Vote for [one]', 'Vote for [two]'], ['', 'a', '', '[a]']]) {
    const pieces = piecesOfBoth(left, right);
    equal(`what differs between ${left} and ${right}`, [marked(pieces.left), marked(pieces.right)], [wantedLeft, wantedRight]);
}

const line = (text) => ({ text, like: text });
const rowsOf = (left, right) => aligned(left, right).map((row) => [row.left?.text ?? null, row.right?.text ?? null, row.same]);
equal('equal ends', rowsOf(['a', 'y', 'z'].map((text) => line(text)), ['b', 'y', 'z'].map((text) => line(text))), [['a', 'b', false], ['y', 'y', true], ['z', 'z', true]]);

// ---- values and ballots

function report(change = () => {}) {
    const made = typed('ElectionReport', {
        GpUnit: [typed('ReportingUnit', { '@id': 'gp1', ExternalIdentifier: identified('U1', 'other', { OtherType: 'ward' }), Name: 'East' }),
            typed('ReportingUnit', { '@id': 'gp2', ExternalIdentifier: identified('U2', 'other', { OtherType: 'ward' }), Name: 'West' })],
        Party: [typed('Party', { '@id': 'pa1', ExternalIdentifier: identified('P1'), Name: 'Blue' }),
            typed('Party', { '@id': 'pa2', ExternalIdentifier: identified('P2'), Name: 'Green' })],
        Person: [typed('Person', { '@id': 'pe1', ExternalIdentifier: identified('N1'), FirstName: 'Ann', LastName: 'Ash' })],
        Header: [typed('Header', { '@id': 'hd1', ExternalIdentifier: identified('H1'), Name: 'State' })],
        Election: [typed('Election', {
            Name: 'Test', StartDate: '2026-11-03',
            Candidate: [typed('Candidate', { '@id': 'ca1', ExternalIdentifier: identified('K1'), BallotName: 'Ann', PartyId: 'pa1' }),
                typed('Candidate', { '@id': 'ca2', ExternalIdentifier: identified('K2'), BallotName: 'Bo', IsTopTicket: true, PartyId: 'pa1' }),
                typed('Candidate', { '@id': 'ca3', ExternalIdentifier: identified('K3'), BallotName: 'Cy' })],
            Contest: [typed('CandidateContest', {
                '@id': 'co1', ExternalIdentifier: identified('C1'), Name: 'Governor', BallotTitle: label(['en', 'For Governor'], ['es', 'Para gobernador']),
                VotesAllowed: 3, ContestSelection: [
                    typed('CandidateSelection', { '@id': 'cs1', CandidateIds: ['ca1', 'ca2'], EndorsementPartyIds: ['pa2'] }),
                    typed('CandidateSelection', { '@id': 'cs2', CandidateIds: ['ca3'] }), typed('CandidateSelection', { '@id': 'cs3', IsWriteIn: true })] })],
            BallotStyle: [typed('BallotStyle', { ExternalIdentifier: identified('S1'), GpUnitIds: ['gp2', 'gp1'], OrderedContent: [
                typed('OrderedHeader', { HeaderId: 'hd1', OrderedContent: [typed('OrderedContest', { ContestId: 'co1', OrderedContestSelectionIds: ['cs2', 'cs1'] })] })] }),
            typed('BallotStyle', { ExternalIdentifier: identified('S2'), GpUnitIds: ['gp1'], OrderedContent: [typed('OrderedContest', { ContestId: 'co1' })] })],
        })],
    });
    change(made, made.Election[0]);
    return made;
}

const plain = report();
const wordsOfPlain = wordsIn(reportBytes(plain));
const { called } = wordsOfPlain;
const textsOf = (name, value) => linesOf(name, value, called).map(({ text }) => text);
const K = (code) => ['local-level', '', code];
const code = { '@type': 'ElectionResults.ExternalIdentifier', Type: 'other', OtherType: 'ward', Value: '7' };
const VALUES = {
    'a set of units': ['GpUnitIds', [['other', 'ward', 'U1'], ['other', 'ward', 'U2']], ['Unit “East” (other ward U1)', 'Unit “West” (other ward U2)']],
    'a party': ['PartyId', K('P1'), ['Party “Blue” (local-level P1)']],
    'a party that no name is known of': ['PartyId', K('P9'), ['Party (local-level P9)']],
    'persons': ['LeaderPersonIds', [K('N1')], ['Person “Ann Ash” (local-level N1)']],
    'authorities': ['AuthorityIds', [K('N1')], ['Person “Ann Ash” (local-level N1)']],
    'a scope': ['PartyScopeGpUnitIds', [['other', 'ward', 'U1']], ['Unit “East” (other ward U1)']],
    'a district': ['ElectionDistrictId', ['other', 'ward', 'U2'], ['Unit “West” (other ward U2)']],
    'the scope of an election': ['ElectionScopeId', K('X'), ['Unit (local-level X)']],
    'a contest': ['ContestIds', [K('C1')], ['Contest “Governor” (local-level C1)']],
    'an election': ['ElectionId', K('E'), ['Election (local-level E)']],
    'a text': ['Name', 'Mayor', ['“Mayor”']],
    'a number': ['VotesAllowed', 18446744073709551615n, ['18446744073709551615']],
    'a flag': ['IsTest', false, ['false']],
    'a label': ['Name', label(['en', 'Yes'], ['es', 'Sí']), ['en: “Yes”', 'es: “Sí”']],
    'identifiers': ['ExternalIdentifier', [code, { ...code, Note: { a: [1, null] } }],
        ['other ward 7', 'other ward 7', 'other ward 7: Note: a: 1: 1', 'other ward 7: Note: a: 2: null']],
    'what is carried': ['Note', { a: { b: 'x', c: [] }, d: {} }, ['a: b: “x”', 'a: c: []', 'd: {}']],
};
Object.entries(VALUES).forEach(([what, [name, value, wanted]]) => equal(`lines of ${what}`, textsOf(name, value), wanted));
equal('lines of one key are alike, whatever the object is called', [report(), report((made) => { made.Party[0].Name = 'Azure'; })]
    .map((one) => linesOf('PartyId', K('P1'), wordsIn(reportBytes(one)).called)[0].like).map((like, _at, [first]) => like === first), [true, true]);
// The list of words comes piece by piece, and one that is too long is not kept.
const party = (code) => ({ class: 'ElectionResults.Party', key: K(code), part: 'party', words: { Name: code } });
const listed = (size, ...pieces) => {
    const wordsByPieces = () => pieces.map((codes) => ({ size, entries: codes.map(party) }));
    return [...wordsListed({ wordsByPieces }, null, null).of('party').values()].map(({ title }) => title);
};
// Each reference to an object with a long code has the code in the words: as many as have 16 MiB together, or eight times the form.
const formWith = (references, code, more = '') => bytesOf({ ExternalIdentifier: [{ Value: 'x'.repeat(code) }], CandidateIds: new Array(references).fill('ca1'), more });
const LONG_CODES = [[1000, 1000], [1000, 16_000], [1000, 16_900], [2000, 9000], [1000, 16_900, 'x'.repeat(2 ** 21)], [1000, 18_000, 'x'.repeat(2 ** 21)]];
equal('words that may be too long', LONG_CODES.map((one) => areBounded(formWith(...one))), [true, true, false, false, true, false]);
equal('words in pieces', [listed(9, ['A', 'B'], ['C', 'D'], ['E']), listed(2, [])], [['A', 'B', 'C', 'D', 'E'], []]);
equal('words that are as long as can be kept', listed(2 ** 26, ['A'], ['B']), ['A', 'B']);
equal('words that are longer', (() => {
    try {
        return listed(2 ** 26 + 1, ['A'], ['B']);
    } catch (error) {
        return error.constructor;
    }
})(), RangeError);
equal('the title of a person', wordsOfPlain.thing('person', K('N1')).title, 'Ann Ash');

const shown = ({ mark, lines, selections = [] }) => [mark, lines.map(({ role, texts }) => [role, ...texts.map(({ lang, pieces }) => lang
    + pieces.map(({ text, mark: word }) => (word === '' ? text : `<${word} ${text}>`)).join(''))]), selections.map(shown)];
const keyOf = (code) => JSON.stringify(['local-level', '', code]);
const itemsOf = (answers, code) => answers.ballot({ key: keyOf(code) }).items.map(shown);
const title = ['title', 'enFor Governor', 'esPara gobernador'];
const votes = ['votes', 'Vote for up to 3'];
const ticket = ['', [['name', 'Bo'], ['name', 'Ann'], ['party', 'Green']], []];
const other = ['', [['name', 'Cy']], []];
const one = ballotsOf(plain);
equal('a ballot in its order', itemsOf(one, 'S1'), [['', [['title', 'State']], []], ['', [title, votes], [other, ticket]]]);
// Without an order they rise by their names: the one for a write-in has no candidate.
equal('a ballot without an order', itemsOf(one, 'S2'), [['', [title, votes], [['', [['writeIn', 'Write-in']], []], ticket, other]]]);
equal('its first lines', one.ballot({ key: keyOf('S1') }).lines.map(({ role, texts }) => [role, texts[0].pieces[0].text]),
    [['election', 'Test'], ['date', '2026-11-03'], ['units', 'East, West']]);

// Two files, of which the right one lacks a language, a selection on a ballot, and a style, and has another precinct and another style.
const right = report((_made, election) => {
    election.Contest[0].BallotTitle = label(['en', 'For Governor']);
    election.BallotStyle[0].OrderedContent[0].OrderedContent[0].OrderedContestSelectionIds = ['cs1', 'cs3'];
    election.BallotStyle[1].ExternalIdentifier = identified('S3');
});
const two = ballotsOf(plain, right);
const marksOf = (answers, group = 'all') => answers.styles({ words: '', group, from: 0, count: 9 }).entries.map(({ code, mark }) => [code, mark]);
equal('which ballots differ', marksOf(two), [['local-level S1', 'changed'], ['local-level S2', 'removed'], ['local-level S3', 'added']]);
const changedTitle = ['title', 'enFor Governor', 'es<removed Para gobernador>'];
equal('what differs is marked', itemsOf(two, 'S1')[1], ['', [changedTitle, votes],
    [['removed', ...other.slice(1)], ticket, ['added', [['writeIn', 'Write-in']], []]]]);
const CHANGES = {
    'another precinct': (_made, election) => { election.BallotStyle[0].GpUnitIds = ['gp2']; },
    'other selections': (_made, election) => { election.BallotStyle[0].OrderedContent[0].OrderedContestSelectionIds = ['cs1']; },
    'another name': (_made, election) => { election.Contest[0].ContestSelection[0].CandidateIds = ['ca1']; },
};
for (const [name, change] of Object.entries(CHANGES)) {
    const answers = ballotsOf(report((_made, election) => { election.BallotStyle.shift(); }), report((made, election) => {
        election.BallotStyle.shift();
        change(made, election);
    }));
    equal(`${name} is seen`, marksOf(answers), [['local-level S2', 'changed']]);
    equal(`${name}: none is the same`, [marksOf(answers, 'same'), marksOf(answers, 'differing')], [[], [['local-level S2', 'changed']]]);
}
const subtitled = report((_made, election) => { election.Contest[0].BallotSubTitle = 'Full term'; });
equal('a line that is gone', itemsOf(ballotsOf(subtitled, plain), 'S2')[0][1].at(-1), ['BallotSubTitle', '<removed Full term>']);
// A ballot that differs in what the page does not show, or in an identifier alone, differs all the same, and there is a sentence on it.
const abbreviated = report((made) => { made.Party[1].Abbreviation = 'G'; });
const hidden = ballotsOf(plain, abbreviated);
const belowOf = (answers) => answers.styles({ words: '', group: 'all', from: 0, count: 9 }).entries.map(({ below, allBelow }) => [below, allBelow]);
equal('what differs on a ballot', belowOf(hidden), [[['  changed contest ["local-level","","C1"]'], 1], [['  changed contest ["local-level","","C1"]'], 1]]);
equal('a ballot that looks the same', [marksOf(hidden), hidden.seen()],
    [[['local-level S1', 'changed'], ['local-level S2', 'changed']], { all: 2, differing: 2, same: 0 }]);
const sentencesOf = (answers) => new BallotFindings(answers).some({ words: '', from: 0, count: 99 }).entries
    .map(({ subject, what, choice = '', count }) => [subject, what, choice, count].join(' '));
// The name of an election is on all of its ballots. The proved code tells it as a difference of the election, and not of a ballot.
const renamed = (change = () => {}) => report((made, election) => {
    election.Name = 'Another';
    change(made);
});
equal('another name of the election', [sentencesOf(ballotsOf(plain, renamed())), sentencesOf(ballotsOf(plain, renamed((made) => { made.GpUnit[1].Name = 'Out'; })))],
    [[], [' words  1']]);
// A style can move to another election: its ballot is the same but for that.
const ofTwo = (at) => report((made, election) => {
    const [style] = election.BallotStyle.splice(1);
    election.ExternalIdentifier = identified('E1');
    made.Election.push(typed('Election', { ExternalIdentifier: identified('E2'), Name: 'Runoff', StartDate: '2026-12-01', Contest: [], BallotStyle: [] }));
    made.Election[at].BallotStyle.push(style);
});
const moved = ballotsOf(ofTwo(0), ofTwo(1));
const electionOn = (answers, code) => shown({ lines: answers.ballot({ key: keyOf(code) }).lines.slice(0, 1) })[1];
equal('a ballot in another election', [moved.seen().differing, electionOn(moved, 'S1'), electionOn(moved, 'S2'), sentencesOf(moved)],
    [0, [['election', 'Test']], [['election', '<removed Test><added Runoff>']], []]);
equal('what looks the same is told', sentencesOf(hidden), ['For Governor changed  2']);
// Another identifier is told as one thing, and marked on both lines: the proved code tells one that is gone, and another one.
const otherCandidate = report((_made, election) => { election.Candidate[2].ExternalIdentifier = identified('K9'); });
const recoded = ballotsOf(plain, otherCandidate);
equal('another identifier', sentencesOf(recoded), ['For Governor choice.renamed Cy 2']);
const [, { selections: recodedOnes }] = recoded.ballot({ key: keyOf('S1') }).items;
equal('another identifier: its lines', recodedOnes.filter(({ renamed: isOther }) => isOther).map(({ mark }) => mark), ['removed', 'added']);
const otherContest = ballotsOf(plain, report((_made, election) => { election.Contest[0].ExternalIdentifier = identified('C9'); }));
equal('a contest with another identifier', [sentencesOf(otherContest),
    otherContest.ballot({ key: keyOf('S2') }).items.map(({ mark, renamed: isOther }) => [mark, isOther])],
    [['For Governor renamed  2'], [['removed', true], ['added', true]]]);
const otherUnit = ballotsOf(plain, report((made) => { made.GpUnit[1].Number = '7'; }));
equal('a unit with another number', [sentencesOf(otherUnit), marksOf(otherUnit)], [[' changed  1'], [['local-level S1', 'changed'], ['local-level S2', '']]]);
const otherCode = ballotsOf(plain, report((_made, election) => { election.BallotStyle[1].ExternalIdentifier = identified('S9'); }));
equal('a style under another code', [marksOf(otherCode), otherCode.seen()],
    [[['local-level S1', ''], ['local-level S2', 'removed'], ['local-level S9', 'added']], { all: 3, differing: 2, same: 1 }]);
equal('the same ballots', marksOf(ballotsOf(plain, report()), 'same'), [['local-level S1', ''], ['local-level S2', '']]);
equal('a ballot with all the words', one.styles({ words: 'east WEST', group: 'all', from: 0, count: 9 }).entries.map(({ code }) => code), ['local-level S1']);
// Units around those of a style are found, and what is not around them is not.
const district = (id, code, Name, inside) => typed('ReportingUnit', { '@id': id, ExternalIdentifier: identified(code), Name, ComposingGpUnitIds: [inside] });
const around = ballotsOf(report((made) => { made.GpUnit.push(district('gp3', 'D3', 'Library', 'gp2'), district('gp4', 'R4', 'Region', 'gp3')); }));
const found = (words) => around.styles({ words, group: 'all', from: 0, count: 9 }).entries.map(({ code }) => code.slice(-2));
equal('a ballot by a district', ['library', 'r4', 'east'].map(found),
    [['S1'], ['S1'], ['S1', 'S2']]);
// Ballots are kept for a while, and asked for once.
const asked = [];
const { ask } = two;
two.ask = (call, ...question) => asked.push(call) && ask(call, ...question);
['S2', 'S2', 'S3', 'S2'].forEach((code) => two.ballot({ key: keyOf(code) }));
equal('a ballot is asked for once', asked, ['erd_ballot', 'erd_ballot']);
// Much that differs on a ballot: the first lines are told, each shortened.
const lengthy = ballotsOf(...[0, 1].map((side) => report((made, election) => {
    const many = Array.from({ length: 31 }, (_, at) => `${side}-${at}-${'x'.repeat(400)}`);
    made.Header.push(...many.map((code) => typed('Header', { '@id': code, ExternalIdentifier: identified(code), Name: code })));
    election.BallotStyle[0].OrderedContent.push(...many.map((code) => typed('OrderedHeader', { HeaderId: code })));
})));
equal('much that differs on a ballot', belowOf(lengthy).map(([below, all]) => [below.length, below.every((line) => line.length <= 301), all]),
    [[30, true, 62], [0, true, 0]]);

// ---- differences of the proved list

const both = [called, called];
const of = (member, left, right, more = {}) => ({ part: 'contest', key: K('C1'), how: 'member', member, ...more,
    values: { ...(left === undefined ? {} : { left }), ...(right === undefined ? {} : { right }) } });
const rowsShown = (difference) => rowsOfDifference(difference, both).rows.map(({ left, right, same, equal: count }) => (
    same === undefined ? count : [left?.text ?? null, right?.text ?? null, same]));
equal('two values', rowsShown(of('VotesAllowed', 1, 2)), [['1', '2', false]]);
const gone = of('Note', undefined, 'x');
equal('a value that one file lacks', [rowsShown(gone), rowsOfDifference(gone, both).there], [[[null, '“x”', false]], [false, true]]);
const offices = 'ABCDE'.split('').map(K);
equal('a set that has one more', rowsShown(of('OfficeIds', offices.slice(0, 4), offices)), [2, ['Office (local-level C)', 'Office (local-level C)', true],
    ['Office (local-level D)', 'Office (local-level D)', true], [null, 'Office (local-level E)', false]]);
const noted = (Note) => ({ ...label(['en', 'Yes']), Note });
equal('two labels that differ in what they carry', rowsShown(of('Name', noted(1), noted(2)))
    .map(([left, right]) => [left.includes('"Note":1'), right.includes('"Note":2')]), [[true, true]]);
const record = (name, members) => ({ class: `ElectionResults.${name}`, election: null, members });
const ONE = { part: 'party', key: K('P7'), how: 'only left', values: { left: record('Party', { Name: label(['es', 'Azul'], ['en', 'Blue']) }) } };
equal('an object that one file has', rowsOfDifference(ONE, both), { titles: ['Blue', null], rows: null, classes: ['Party', null] });
const CLASSES = { ...ONE, how: 'other class', values: { left: record('Party', { Name: 'Blue' }), right: record('Coalition', { Name: 'Both' }) } };
equal('an object of another class', rowsOfDifference(CLASSES, both), { titles: ['Blue', 'Both'], rows: null, classes: ['Party', 'Coalition'] });
equal('selections have no rows', rowsOfDifference({ ...of('ContestSelection'), values: undefined }, both), { titles: ['Governor', 'Governor'] });

// What differs on the ballot of a style, by the lines of the proved code.
const BELOW = `  changed parties
  changed units
  removed header ["local-level","","H1"]
  moved contest ["local-level","","C1"]
    added selection ["ElectionResults.CandidateSelection",[["local-level","","K1"],["local-level","","K2"]],false,null,null,null]
    moved selection ["ElectionResults.CandidateSelection",[],true,18446744073709551615,null,["local-level","","W 1"]]
`;
const ofStyle = { part: 'style', key: K('S1'), how: 'member', member: 'OrderedContent' };
const onBallot = (below) => insideOf(ofStyle, both, () => below);
equal('what differs on a ballot, with its words', onBallot(BELOW), { part: 'style', count: 6, entries: [
    { how: 'changed', name: 'Parties' }, { how: 'changed', name: 'Units' }, { how: 'removed', name: 'Header “State” (local-level H1)' },
    { how: 'moved', name: 'Contest “Governor” (local-level C1)' },
    { how: 'added', name: 'Selection: Candidate “Ann” (local-level K1) + Candidate “Bo” (local-level K2)' },
    { how: 'moved', name: 'Selection: write-in (place 18446744073709551615, local-level W 1)' }] });
equal('a line with a character that ends lines elsewhere', onBallot('  added contest ["local-level","","a\u2028b"]\n').entries,
    [{ how: 'added', name: 'local-level a\u2028b' }]);
equal('a ballot whose lines are the same', onBallot(''), { part: 'style', count: 0, entries: [] });
equal('a ballot of which nothing is known', onBallot(null) ?? 'none', 'none');
const lengthyBallot = onBallot('  changed units\n'.repeat(101));
equal('much that differs on a ballot, of which the first is shown', [lengthyBallot.count, lengthyBallot.entries.length], [101, 100]);

const onlyOf = (how, codes) => codes.map((one) => ({ part: 'person', key: K(one), how }));
const member = (one, name) => ({ part: 'unit', key: ['fips', '', one], how: 'member', member: name });
equal('how many objects differ', talliesOf([member('1', 'Name'), member('1', 'Type'), member('2', 'Name'), ...onlyOf('only right', ['A'])]),
    [{ part: 'unit', 'only left': 0, 'only right': 0, differ: 2, members: 3 }, { part: 'person', 'only left': 0, 'only right': 1, differ: 0, members: 0 }]);

// How ballots print differences, and their kinds. The contest has no number of seats for a runoff, which no ballot prints.
const carrying = (...notes) => notes.map((Note) => ({ ...code, ...(Note === null ? {} : { Note }) }));
const list = [of('ExternalIdentifier', [code], [{ ...code, Value: '8' }]), of('ExternalIdentifier', carrying(1), carrying(2)),
    of('Name', 'a', 'b'), of('NumberRunoff', 1, 2), of('ExternalIdentifier', undefined, carrying(null, 5))];
const differences = new Differences(list, 9, () => null, both);
const printsOf = (entries) => entries.map(({ number, print }) => [number, print]);
equal('how ballots print differences', printsOf(differences.some({ from: 0, count: 9 })),
    [[0, 'none'], [1, 'beside'], [2, 'words'], [3, 'none'], [4, 'beside']]);
equal('what ballots tell is filed first, and what no ballot prints last', printsOf(differences.some({ isFiled: true, from: 0, count: 9 })),
    [[2, 'words'], [1, 'beside'], [4, 'beside'], [0, 'none'], [3, 'none']]);
equal('some of one kind', printsOf(differences.some({ kind: 0, from: 1, count: 1 })), [[1, 'beside']]);
const told = differences.told({ all: 2, differing: 1 });
equal('what is told of the list', [told.count, told.listed, told.first.number, told.seen.unseen, told.kinds.map(({ member: name, count }) => [name, count])],
    [9, 5, 0, 2, [['ExternalIdentifier', 3], ['Name', 1], ['NumberRunoff', 1]]]);
const unnamed = new Differences(list, 5);
equal('a list without names', [unnamed.told(null).seen, unnamed.some({ from: 2, count: 1 })
    .map(({ print, titles, rows }) => [print ?? 'unknown', titles, rows.length])], [null, [['unknown', [null, null], 1]]]);

// ---- a worker that ends, or that can't begin

class FakeWorker {
    static made = [];

    constructor() {
        this.heard = {};
        this.asked = [];
        FakeWorker.made.push(this);
    }

    addEventListener(kind, listener) {
        this.heard[kind] = listener;
    }

    postMessage(message) {
        this.asked.push(message);
    }

    terminate() {}
}

const failure = (promise) => promise.then(() => 'an answer', (error) => error.message);
const client = new Client(() => new FakeWorker(), {});
const waiting = failure(client.ask('verdict', {}));
FakeWorker.made[0].heard.error({ message: 'out of memory' });
equal('a worker that ends is told, and there is another one', [await waiting, FakeWorker.made.length], ['out of memory', 2]);
const [begun] = FakeWorker.made[1].asked;
const next = failure(client.ask('verdict', {}));
FakeWorker.made[1].heard.message({ data: { number: begun.number, error: 'no module' } });
equal('a worker that cannot begin is told', [await next, await failure(client.ask('sums', {}))], ['no module', 'no module']);
client.renew();
equal('the next one may begin', [FakeWorker.made.length, FakeWorker.made[2].asked[0].kind], [3, 'start']);

// ---- texts that are made only as far as they are shown

const tree = readTree(bytesOf({ a: [1, { b: 'x'.repeat(50) }], c: {} }));
equal('a text that fits', boundedText(tree, 1000), `{"a":[1,{"b":"${'x'.repeat(50)}"}],"c":{}}`);
equal('a text that is cut', boundedText(tree, 12), '{"a":[1,{"b"…');
equal('a pointer that is cut', [boundedPointer(['a/b', 0], 10), boundedPointer(['x'.repeat(30), 'y'], 10)], ['/a~1b/0', `/${'x'.repeat(9)}…`]);

const copied = withMark(bytesOf('{\n "a": 1\n}'), { name: 'a "b".json', original: '0'.repeat(64), converted: null, steps: [{ name: 'nulls', count: 3 }] });
equal('the mark of a copy', markIn(JSON.parse(new TextDecoder().decode(copied)).Notes),
    { name: 'a "b".json', original: '0'.repeat(64), converted: false, steps: [{ name: 'nulls', count: 3 }] });
const ofXml = { name: 'a", converted from XML (SHA-256 ".xml', original: '1'.repeat(64), converted: true, steps: [{ name: 'nulls', count: 3 }] };
equal('the mark of a copy of XML', markIn(JSON.parse(new TextDecoder().decode(withMark(bytesOf('{}'), ofXml))).Notes), ofXml);
// A copy says more in its notes, and nothing less: a note may say that a contest is struck.
const STRUCK = { Notes: 'Contest 3 is struck.\nSee "order 7".', a: [1, 'x'] };
const struck = JSON.parse(new TextDecoder().decode(withMark(bytesOf(STRUCK), ofXml)));
equal('a copy keeps the notes of its file', [struck.Notes.split('\n').slice(0, -1).join('\n'), struck.a, withoutMark(struck.Notes), markIn(struck.Notes)],
    [STRUCK.Notes, STRUCK.a, STRUCK.Notes, ofXml]);
equal('notes without the mark', [withoutMark(`x\n${JSON.parse(new TextDecoder().decode(copied)).Notes}`), withoutMark('y'), markIn('Prepared by hand')], ['x', 'y', null]);

// ---- the words of the page

const OLD_WORDS = /\b(strangers?|mend(s|ed|ing)?|not seen|taken out|takes? (\S+ ){0,3}out)\b/i;
equal('plain words', Object.keys(TEXTS).filter((key) => OLD_WORDS.test(JSON.stringify(TEXTS[key]))), []);
const SPANISH = JSON.parse(readFileSync(new URL('web/texts.es.json', ROOT)));
equal('one word for the standard in Spanish', Object.keys(SPANISH).filter((key) => /estándar/i.test(JSON.stringify(SPANISH[key]))), []);
equal('articles in Spanish', Object.keys(SPANISH).filter((key) => /^(member|subject)\./.test(key) && !/^(el|la|los|las) /i.test(SPANISH[key])), []);

// ---- what large files need: 40 bytes of memory for each byte of the larger of two, 25 for each byte of one, told from 300 MB on

const NEEDS = {
    'two files that need less': [[7_499_999, 1], null], 'two files': [[1, 7_500_000], 300, 'erd compare'], 'the larger of two': [[9_000_001, 8_000_000], 370, 'erd compare'],
    'one file that needs less': [[11_999_999], null], 'one file': [[12_000_000], 300, 'erd check'],
};
for (const [name, [sizes, megabytes, command]] of Object.entries(NEEDS)) {
    equal(`needs: ${name}`, needsOf(sizes.map((size) => ({ size }))), megabytes === null ? null : { megabytes, command });
}

// ---- the columns of printed ballots: where each begins, of pieces as [height, item, whether it keeps the next one]

const COLUMNS = {
    'one piece after another': [[[40, 0], [40, 1], [40, 2], [40, 3], [40, 4]], [0, 2, 4]],
    'a header goes with what follows': [[[80, 0], [10, 1, true], [30, 2]], [0, 1]],
    'a short item stays whole': [[[50, 0], [20, 1], [20, 1], [20, 1]], [0, 1]],
    'a long item is broken': [[[50, 0], ...Array.from({ length: 10 }, () => [20, 1])], [0, 3, 8]],
    'what keeps together and is higher than a column': [[[60, 0, true], [60, 0, true], [60, 0]], [0, 1, 2]],
    'nothing': [[], []],
};
for (const [name, [pieces, starts]] of Object.entries(COLUMNS)) {
    equal(`columns: ${name}`, columnsOf(pieces.map(([height, item, keeps = false]) => ({ height, item, keeps })), 100), starts);
}
counts();
