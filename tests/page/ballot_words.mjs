// Tries that the page's ballots have what a voter needs, on one small report that is written out here: each statement on a
// measure, each party of a candidate, how votes are counted, and what only one file says of an order. One line for each case
// that fails; at the end stand the counts.
import { ballotsOf } from './answered.mjs';
import { counts, equal } from './counted.mjs';
import { identified, label, typed } from './made.mjs';

const STATEMENTS = {
    SummaryText: 'A bond for roofs.', FullText: 'The county sells bonds.', ProStatement: 'Roofs leak.', ConStatement: 'Bonds cost more.',
    EffectOfAbstain: 'It counts for neither side.', PassageThreshold: 'Three fifths',
};

function report(change = () => {}) {
    const made = typed('ElectionReport', {
        GpUnit: [typed('ReportingUnit', { '@id': 'gp1', ExternalIdentifier: identified('U1'), Name: 'East' })],
        Header: [typed('Header', { '@id': 'he1', ExternalIdentifier: identified('H1'), Name: 'Offices' })],
        Party: ['Blue', 'Green'].map((name, at) => typed('Party', { '@id': `pa${at}`, ExternalIdentifier: identified(name), Name: name })),
        Election: [typed('Election', {
            Name: 'Test', StartDate: '2026-11-03',
            Candidate: [typed('Candidate', { '@id': 'ca1', ExternalIdentifier: identified('K1'), BallotName: 'Ann', PartyId: 'pa0' }),
                typed('Candidate', { '@id': 'ca2', ExternalIdentifier: identified('K2'), BallotName: 'Bo', PartyId: 'pa1' })],
            Contest: [typed('BallotMeasureContest', {
                '@id': 'co1', ExternalIdentifier: identified('C1'), Name: 'Measure A', VoteVariation: 'super-majority', ...STATEMENTS,
                ContestSelection: ['Yes', 'No'].map((text) => typed('BallotMeasureSelection', { '@id': `bm${text}`, Selection: label(['en', text]) })) }),
            typed('CandidateContest', {
                '@id': 'co2', ExternalIdentifier: identified('C2'), Name: 'Governor', VotesAllowed: 1, VoteVariation: 'rcv',
                ContestSelection: [typed('CandidateSelection', { '@id': 'cs1', CandidateIds: ['ca1'], EndorsementPartyIds: ['pa0', 'pa1'] }),
                    typed('CandidateSelection', { '@id': 'cs2', CandidateIds: ['ca2'] })] })],
            BallotStyle: [typed('BallotStyle', { ExternalIdentifier: identified('S1'), GpUnitIds: ['gp1'], OrderedContent: [
                typed('OrderedContest', { ContestId: 'co1', OrderedContestSelectionIds: ['bmYes', 'bmNo'] }),
                typed('OrderedContest', { ContestId: 'co2' })] })],
        })],
    });
    change(made.Election[0]);
    return made;
}

const key = JSON.stringify(['local-level', '', 'S1']);
const textsOf = ({ lines }) => lines.map(({ role, texts }) => [role, texts.map(({ pieces }) => pieces.map(({ text }) => text).join('')).join(' / ')]);
const one = ballotsOf(report());
const [measure, governor] = one.ballot({ key }).items;

equal('a measure has each statement, for and against', Object.fromEntries(textsOf(measure).filter(([role]) => Object.hasOwn(STATEMENTS, role))), STATEMENTS);
equal('its way to vote', textsOf(measure).some(([role, text]) => role === 'variation' && /super-majority|majority/i.test(text)), true);
equal('its answers in their order', measure.selections.map(textsOf), [[['name', 'Yes']], [['name', 'No']]]);
equal('a ranked choice', textsOf(governor).slice(1), [['variation', 'Ranked choice: rank the choices in the order that you prefer'], ['votes', 'Votes allowed, by the file: 1']]);
const counted = ballotsOf(report((election) => { election.Contest[1].VoteVariation = 'n-of-m'; })).ballot({ key }).items[1];
equal('how many votes and which way', textsOf(counted).slice(1), [['votes', 'Vote for 1'], ['variation', 'Way of voting: vote for several']]);
equal('each party of a candidate', governor.selections.map(textsOf),
    [[['name', 'Ann'], ['party', 'Blue'], ['party', 'Green']], [['name', 'Bo'], ['party', 'Green']]]);

// A contest of parties has the names of the parties, a contest of a judge the name of the judge, and a header what stands below it.
const others = ballotsOf(report((election) => {
    const contests = ['co3', 'co4'].map((ContestId) => typed('OrderedContest', { ContestId }));
    election.BallotStyle[0].OrderedContent = [typed('OrderedHeader', { HeaderId: 'he1', OrderedContent: contests })];
    election.Contest.push(typed('PartyContest', { '@id': 'co3', ExternalIdentifier: identified('C3'), Name: 'Straight party', ContestSelection: [
        typed('PartySelection', { '@id': 'ps1', PartyIds: ['pa0'] }), typed('PartySelection', { '@id': 'ps2', PartyIds: ['pa0', 'pa1'] })] }),
    typed('RetentionContest', { '@id': 'co4', ExternalIdentifier: identified('C4'), Name: 'Judge', CandidateId: 'ca2',
        ContestSelection: ['Yes', 'No'].map((text) => typed('BallotMeasureSelection', { '@id': `re${text}`, Selection: text })) }));
})).ballot({ key }).items;
equal('what stands below a header', others.map(({ kind, depth, lines }) => [kind, depth, textsOf({ lines })[0][1]]),
    [['header', 0, 'Offices'], ['contest', 1, 'Straight party'], ['contest', 1, 'Judge']]);
equal('the names of parties', others[1].selections.map(textsOf), [[['name', 'Blue']], [['name', 'Blue'], ['name', 'Green']]]);
equal('the name of a judge, and the answers', [textsOf(others[2]).filter(([role]) => role === 'candidate'), others[2].selections.map(textsOf)],
    [[['candidate', 'Bo']], [[['name', 'No']], [['name', 'Yes']]]]);

// Only one of the files fixes an order: the words are the same, and stand in that order.
const ordered = report((election) => { election.BallotStyle[0].OrderedContent[1].OrderedContestSelectionIds = ['cs2', 'cs1']; });
const other = report((election) => { election.BallotStyle[0].OrderedContent[1].OrderedContestSelectionIds = ['cs1', 'cs2']; });
for (const [name, left, right] of [['the right file alone', report(), ordered], ['the left file alone', ordered, report()]]) {
    const two = ballotsOf(left, right);
    equal(`an order that ${name} fixes: the ballots differ`, two.seen(), { all: 1, differing: 1, same: 0 });
    const { items } = two.ballot({ key });
    equal(`an order that ${name} fixes: it is told`, items.map(({ ordered: isOrder }) => isOrder), [true, false]);
    equal(`an order that ${name} fixes: it is shown`, items[1].selections.map(({ lines: [{ texts }] }) => texts[0].pieces[0].text), ['Bo', 'Ann']);
}
const two = ballotsOf(ordered, other);
equal('another order: the ballots differ', two.seen(), { all: 1, differing: 1, same: 0 });
equal('another order: one of two has moved', two.ballot({ key }).items[1].selections.filter(({ mark }) => mark === 'moved').length, 1);
equal('the same order: the ballots are the same', ballotsOf(ordered, ordered).seen(), { all: 1, differing: 0, same: 1 });

// What the file says of the candidates stands below their names, and rotation where the file says so.
function known(election, [first, second], rotation) {
    Object.assign(election.Candidate[0], { PersonId: 'pe1', ...first });
    Object.assign(election.Candidate[1], second);
    Object.assign(election.Contest[1], { HasRotation: rotation });
    election.Contest[1].ContestSelection = [typed('CandidateSelection', { '@id': 'cs1', CandidateIds: ['ca1', 'ca2'] })];
}
function withPerson(...change) {
    return ({ ...report((election) => known(election, ...change)), Person: [typed('Person', { '@id': 'pe1', ExternalIdentifier: identified('P1'), Profession: label(['en', 'Teacher']) })] });
}
const both = withPerson([{}, { IsIncumbent: true }], true);
const ticket = ballotsOf(both).ballot({ key }).items[1];
equal('rotation', textsOf(ticket).at(-1), ['rotation', 'The choices change places from ballot to ballot (rotation).']);
equal('what is said of candidates', textsOf(ticket.selections[0]),
    [['name', 'Ann'], ['profession', 'Teacher'], ['name', 'Bo'], ['incumbent', 'Incumbent'], ['party', 'Blue'], ['party', 'Green']]);
const plain = withPerson([{ IsIncumbent: false }, {}], false);
const [, unset] = ballotsOf(plain).ballot({ key }).items;
equal('flags that are not set', [...textsOf(unset), ...textsOf(unset.selections[0])]
    .filter(([role]) => role === 'incumbent' || role === 'rotation'), []);
const marks = ballotsOf(both, withPerson([{ IsIncumbent: true }, { IsIncumbent: true }], true)).ballot({ key }).items[1].selections[0].lines;
equal('who else is in office in the other file', marks.map(({ role, texts }) => [role, texts.map(({ pieces }) => pieces.map(({ mark }) => mark).join()).join()])
    .filter(([role]) => role === 'incumbent'), [['incumbent', 'added'], ['incumbent', '']]);

// A title that lacks a language of other titles is marked. That is no difference by itself.
const titled = (...titles) => report((election) => titles.forEach((title, at) => { election.Contest[at].BallotTitle = title; }));
const lackingIn = (made) => ballotsOf(made).ballot({ key }).items.map(({ lacking }) => lacking);
equal('titles that lack a language', lackingIn(titled(label(['en', 'Measure A'], ['es', 'Medida A']), label(['en', 'Governor']))), [[], ['es']]);
equal('a title in no language', lackingIn(titled(label(['en', 'Measure A']), 'Governor')), [[], ['']]);
equal('titles in no language alone', lackingIn(titled('Measure A', 'Governor')), [[], []]);

// What one file lacks of all that, the other one shows as gone.
const LACKING = [['ConStatement', 0, 'ConStatement'], ['ProStatement', 0, 'ProStatement'], ['VoteVariation', 1, 'variation']];
for (const [name, at, role] of LACKING) {
    const answers = ballotsOf(report(), report((election) => { delete election.Contest[at][name]; }));
    equal(`without ${name}: the ballots differ`, answers.seen(), { all: 1, differing: 1, same: 0 });
    const line = answers.ballot({ key }).items[at].lines.find((some) => some.role === role);
    equal(`without ${name}: it is marked`, line.texts.flatMap(({ pieces }) => pieces.map(({ mark }) => mark)), ['removed']);
}

counts();
