// Tries what the page tells of the lines of a ballot, on files in which the same words stand in several contests: what was lost is told
// as lost, in its contest, and nothing is told as moved that stands where it stood.
import { shownRows } from '../../web/scripts/rows.mjs';
import { ballotsOf } from './answered.mjs';
import { counts, equal } from './counted.mjs';
import { identified, typed } from './made.mjs';

// Four contests of one style. Each line is known by its contest: Y and N are yes and no, W is the write-in.
const CONTESTS = { S: ['Sheriff', 'A', 'B', 'W'], B: ['Board', 'C', 'D', 'W'], M: ['Measure 2', 'Y', 'N'], J: ['Judge', 'Y', 'N'] };

function selectionOf(contest, line) {
    const id = `${contest}-${line}`;
    return line === 'W' ? typed('CandidateSelection', { '@id': id, IsWriteIn: true })
        : 'YN'.includes(line) ? typed('BallotMeasureSelection', { '@id': id, Selection: line === 'Y' ? 'Yes' : 'No' })
        : typed('CandidateSelection', { '@id': id, CandidateIds: [`ca-${line}`] });
}

// A report whose only style has these contests with these lines, as in 'S:A B W'.
function ballot(...parts) {
    const contests = Object.entries(CONTESTS).map(([code, [Name, ...lines]]) => typed('CandidateContest', {
        '@id': code, ExternalIdentifier: identified(code), Name, ContestSelection: lines.map((line) => selectionOf(code, line)) }));
    const listed = (part) => {
        const [ContestId, lines] = part.split(':');
        return typed('OrderedContest', { ContestId, OrderedContestSelectionIds: lines.split(' ').filter(Boolean).map((line) => `${ContestId}-${line}`) });
    };
    const content = parts.map((part) => (part.startsWith('#') ? typed('OrderedHeader', { HeaderId: 'hd', OrderedContent: part.slice(1).split('|').map(listed) }) : listed(part)));
    return typed('ElectionReport', {
        Header: [typed('Header', { '@id': 'hd', ExternalIdentifier: identified('H'), Name: 'Head' })],
        GpUnit: [typed('ReportingUnit', { '@id': 'gp', ExternalIdentifier: identified('U'), Name: 'East' })],
        Election: [typed('Election', {
            Name: 'Test', StartDate: '2026-11-03', ExternalIdentifier: identified('E'), Contest: contests,
            Candidate: ['A', 'B', 'C', 'D'].map((name) => typed('Candidate', { '@id': `ca-${name}`, ExternalIdentifier: identified(name), BallotName: name })),
            BallotStyle: [typed('BallotStyle', { ExternalIdentifier: identified('S1'), GpUnitIds: ['gp'], OrderedContent: content })] })],
    });
}

const KEY = JSON.stringify(['local-level', '', 'S1']);
const WHOLE = ['S:A B W', 'B:C D W', 'M:Y N', 'J:Y N'];

// What differs, as words, from the view of the ballot: the contest, the line, and what became of it.
function viewed(left, right) {
    const { items } = ballotsOf(left, right).ballot({ key: KEY });
    const wordsOf = ({ mark, from, to }) => (mark === 'moved' ? `${from} to ${to}` : mark);
    const nameOf = ({ lines }) => lines[0].texts[0].pieces.map(({ text }) => text).join('').replace('Write-in', 'write-in');
    return items.flatMap((item) => [...(item.mark === '' ? [] : [`${nameOf(item)} ${wordsOf(item)}`]),
        ...(item.selections ?? []).filter(({ mark }) => mark !== '').map((one) => `${nameOf(item)} ${nameOf(one)} ${wordsOf(one)}`)]);
}

const CASES = {
    'a lost yes, while a yes and a no are swapped': [['S:A B W', 'B:C D W', 'M:N', 'J:N Y'], ['Measure 2 Yes removed', 'Judge Yes 1 to 2']],
    'a lost write-in': [['S:A B', 'B:C D W', 'M:Y N', 'J:Y N'], ['Sheriff write-in removed']],
    'a contest that goes to the front': [['B:C D W', 'S:A B W', 'M:Y N', 'J:Y N'], ['Sheriff 1 to 2']],
    'a contest that goes from last to first': [['J:Y N', 'S:A B W', 'B:C D W', 'M:Y N'], ['Judge 4 to 1']],
    'a contest that moves and loses a line': [['J:Y', 'S:A B W', 'B:C D W', 'M:Y N'], ['Judge 4 to 1', 'Judge No removed']],
    'a lost contest whose lines stand below another one': [['S:A B W', 'B:C D W', 'J:Y N'], ['Measure 2 removed']],
    'lines that are swapped': [['S:B A W', 'B:C D W', 'M:Y N', 'J:Y N'], ['Sheriff A 1 to 2']],
    'a contest that stands twice': [['S:A B W', 'B:C D W', 'M:Y N', 'J:Y N', 'M:Y N'], ['Measure 2 added']],
    'a contest below a header': [['S:A B W', 'B:C D W', '#M:Y N', 'J:Y N'], ['Head added', 'Measure 2 3 to 3']],
    'nothing': [WHOLE, []],
};
for (const [name, [parts, wanted]] of Object.entries(CASES)) {
    equal(`lines: ${name}`, viewed(ballot(...WHOLE), ballot(...parts)), wanted);
}

// Lists that are longer than any ballot: as many stay as can, at any length.
function headers(numbers) {
    const made = ballot();
    made.Header = numbers.map((number) => typed('Header', { '@id': `h${number}`, ExternalIdentifier: identified(`H${number}`), Name: String(number) }));
    made.Election[0].BallotStyle[0].OrderedContent = numbers.map((number) => typed('OrderedHeader', { HeaderId: `h${number}` }));
    return made;
}
function marks(left, right) {
    const both = ballotsOf(headers(left), headers(right)).ballotsOf(KEY).ballots;
    const items = Array.from({ length: both.count }, (_, at) => both.item(at)).filter(({ mark }) => mark !== '');
    return items.map(({ lines: [{ texts: [{ pieces }] }], mark, from, to }) => [pieces.map(({ text }) => text).join(''), mark, ...(mark === 'moved' ? [from, to] : [])]);
}
const numbers = Array.from({ length: 5000 }, (_, number) => number);
equal('lines: one of 5,000 is gone, one is new, and one has moved', marks(numbers, [4000, ...numbers.filter((number) => ![0, 4000].includes(number)), 5000]),
    [['0', 'removed'], ['4000', 'moved', 4001, 1], ['5000', 'added']]);
equal('lines: all of 5,000 the other way round', marks(numbers, [...numbers].reverse()).length, 4999);

// What is shown of many rows: what differs, and what is around it.
const row = (text, same = true) => ({ left: { text }, right: { text }, same });
const many = Array.from({ length: 20 }, (_, at) => row(`a${at}`, at !== 15));
equal('lines: what is around a row that differs', shownRows(many).map((one) => one.left?.text ?? one),
    [{ equal: 13 }, 'a13', 'a14', 'a15', 'a16', 'a17', { equal: 2 }]);
const differing = Array.from({ length: 1000 }, (_, at) => row(`c${at}`, at < 900));
equal('lines: a difference behind 900 equal rows is shown', shownRows(differing).slice(0, 2).map((one) => one.left?.text ?? one), [{ equal: 898 }, 'c898']);
const all = shownRows(Array.from({ length: 1000 }, (_, at) => row(`c${at}`, false)));
equal('lines: how many are not shown', [all.length, all.at(-1)], [401, { more: 600 }]);

counts();
