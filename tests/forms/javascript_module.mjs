// Tries the module of bindings/js in this process: the whole conformance suite, and what each call tells. One line for each case
// that fails; at the end stand the counts. javascript_refusals.mjs tries what a caller can do wrong.
import { existsSync, readdirSync, readFileSync } from 'node:fs';
import { load, repeatedNames } from '../../bindings/js/index.mjs';
import { compactText } from '../../bindings/js/lib/exact.mjs';
import { comparePrepared, lineOfRemedy, Preparation, remedyOf, STEPS, stepsOf, told } from '../../bindings/js/lib/prepare/prepared.mjs';
import { compactText as treeText, readTree } from '../../bindings/js/lib/tree.mjs';
import { visible } from '../../bindings/js/lib/words.mjs';
import { counts, equal, throws } from './counted.mjs';

const SUITE = new URL('../../out/conformance/', import.meta.url);
const EXAMPLES = new URL('../../examples/', import.meta.url);

function fileOf(folder, name) {
    const place = new URL(name, folder);
    return existsSync(place) ? readFileSync(place) : null;
}

const erd = await load(readFileSync(new URL('../../out/portable/erd.wasm', import.meta.url)));

// Each case of the suite: the texts made from objects, and those that the calls of the program write.
for (const name of readdirSync(SUITE, { withFileTypes: true }).filter((entry) => entry.isDirectory()).map((entry) => entry.name)) {
    const folder = new URL(`${name}/`, SUITE);
    const options = { prefer: fileOf(folder, 'prefer')?.toString().replace(/\n$/, '') };
    const lines = fileOf(folder, 'check.txt')?.toString();
    if (lines !== undefined) {
        tryReport(name, fileOf(folder, 'input.json'), options, lines, fileOf(folder, 'canonical.json')?.toString());
    } else {
        tryPair(name, fileOf(folder, 'left.json'), fileOf(folder, 'right.json'), options, fileOf(folder, 'compare.txt').toString());
    }
}

function tryReport(name, report, options, lines, form) {
    const checked = erd.check(report, options);
    equal(`${name}: check`, checked.text, lines);
    equal(`${name}: the outcome`, checked.outcome, { 'accepted\n': 'accepted', 'not JSON\n': 'not JSON' }[lines] ?? 'refused');
    equal(`${name}: accepted`, checked.accepted, lines === 'accepted\n');
    equal(`${name}: the lines of faults`, checked.faults.map(({ pointer, words }) => `${pointer}: ${words}\n`).join(''),
        checked.outcome === 'refused' ? lines : '');
    const canonical = erd.canonical(report, options);
    equal(`${name}: canonical`, canonical.text, form ?? lines);
    equal(`${name}: the bytes`, canonical.bytes === null ? undefined : Buffer.from(canonical.bytes).toString(), form);
    equal(`${name}: as the program writes it`, written('check', [report], options), lines);
    equal(`${name}: the number of faults`, checked.allFaults, checked.faults.length);
    const first = erd.check(report, { ...options, mostFaults: 1 });
    equal(`${name}: the first fault`, `${first.outcome} ${first.faults.length} ${first.allFaults} ${first.more} ${first.faults[0]?.line}`,
        `${checked.outcome} ${Math.min(1, checked.faults.length)} ${checked.faults.length} ${checked.faults.length > 1} ${checked.faults[0]?.line}`);
}

function tryPair(name, left, right, options, lines) {
    const compared = erd.compare(left, right, options);
    equal(`${name}: compare`, compared.text, lines);
    equal(`${name}: same`, compared.same, lines === 'same\n');
    equal(`${name}: as the program writes it`, written('compare', [left, right], options), lines);
    const { outcome, differences, side, text } = erd.differences(left, right, options);
    equal(`${name}: the outcome of the list`, outcome, compared.outcome);
    equal(`${name}: the first of the list`, side === null && differences.length > 0 ? `${differences[0].line}\n` : text, lines);
    equal(`${name}: the list as the command writes it`, written('differences', [left, right], options), text);
    const entries = fileOf(new URL(`${name}/`, SUITE), 'entries.json');
    if (entries !== null && side === null) {
        equal(`${name}: the list as data`, compactText(inOrder(differences.map(withoutLine))), entries.toString());
    }
    if (compared.difference !== null) {
        const { part, key, how, member } = compared.difference;
        const object = key === null ? part : `${part} ${JSON.stringify(key)}`;
        equal(`${name}: the difference`, `${object}: ${how}${how === 'member' ? ` ${JSON.stringify(member)}` : ''}\n`, lines);
    }
}

function withoutLine({ line: _line, ...difference }) {
    return difference;
}

// The value with the members of each object in the order of their names.
function inOrder(value) {
    if (Array.isArray(value)) {
        return value.map(inOrder);
    }
    return value === null || typeof value !== 'object' ? value
        : Object.fromEntries(Object.entries(value).sort().map(([name, inner]) => [name, inOrder(inner)]));
}

function written(name, reports, options) {
    return [...erd.written(name, reports, options)].map(({ bytes }) => new TextDecoder().decode(bytes)).join('');
}

// A name that looks like a line of another fault stays one name.
const falseLine = JSON.stringify({
    '@type': 'ElectionResults.ElectionReport', Election: [], Status: 'pre-election', 'x\n/y: wrong kind\nId': 1,
});
const two = erd.check(falseLine).faults;
equal('a name with a false line', JSON.stringify(two.map(({ place, reason }) => [place, reason])),
    JSON.stringify([[['Election'], 9], [['x\n/y: wrong kind\nId'], 6]]));

// Lists that are longer than what is asked for: in lines, and in pieces of many bytes each.
const many = JSON.stringify({
    '@type': 'ElectionResults.ElectionReport', Election: [], Status: 'pre-election', ['n'.repeat(20000)]: new Array(5000).fill(1.5),
});
const some = erd.check(many);
equal('some of many faults', `${some.outcome} ${some.faults.length > 50 && some.faults.length < 60} ${some.allFaults} ${some.more}`, 'refused true 5001 true');
equal('the statuses', [erd.check(many), erd.check('{'), erd.compare('{', '{'), erd.differences(many, many)].map(({ status }) => status).join(), '1,2,2,1');
equal('three faults', erd.check(many, { mostFaults: 3 }).faults.map(({ pointer }) => pointer.slice(-3)).join(), 'ion,n/0,n/1');
equal('no faults of many', `${erd.check(many, { mostFaults: 0 }).outcome} ${erd.check(many, { mostFaults: 0 }).allFaults}`, 'refused 5001');
equal('all faults', erd.check(many.replace(/n{20000}/, 'n'), { mostFaults: null }).faults.length, 5001);
equal('a thousand faults', erd.check(many.replace(/n{20000}/, 'n')).faults.length, 1000);
const pieces = [...erd.written('check', [many])];
equal('pieces of the lines', pieces.length > 90, true);
equal('the results of the pieces', [...erd.checkedByPieces(many)].map(({ text }) => text).join(''), written('check', [many], {}));
const accepted = readFileSync(new URL('../../examples/one-unit.json', import.meta.url));
equal('the only result', [accepted, '{'].map((report) => [...erd.checkedByPieces(report)].map(({ text }) => text).join('|')).join(''), 'accepted\nnot JSON\n');
equal('each piece has its own bytes', new TextDecoder().decode(pieces[0].bytes.subarray(0, 9)), '/Election');
equal('what is taken of the pieces', [...erd.written('check', [many], {}, (bytes, status) => bytes.length * status)].map(({ bytes }) => bytes).join(),
    pieces.map(({ bytes }) => bytes.length).join());

// All pieces of a list are those of one list that is open. A call for each of them would judge the report each time.
const { Instance } = WebAssembly;
const calls = {};
const counted = (name, value) => typeof value !== 'function' ? value : (...words) => {
    calls[name] = (calls[name] ?? 0) + 1;
    return value(...words);
};
erd.rest();
WebAssembly.Instance = class extends Instance {
    get exports() {
        return Object.fromEntries(Object.entries(super.exports).map(([name, value]) => [name, counted(name, value)]));
    }
};
const lengths = [...erd.written('check', [many], {}, (bytes) => bytes.length)];
WebAssembly.Instance = Instance;
erd.rest();
equal('one open list for all pieces', JSON.stringify([calls.erd_open, calls.erd_next, calls.erd_check_piece ?? 0]), JSON.stringify([1, lengths.length, 0]));

// A list that is longer than a piece: in each of these contests a selection has another note.
const oneUnit = readFileSync(new URL('one-unit.json', EXAMPLES)).toString();
function contests(count, note, kind) {
    const report = JSON.parse(oneUnit);
    const identifiers = (type, value) => [{ '@type': 'ElectionResults.ExternalIdentifier', Type: type, Value: value }];
    report.Election[0].Contest = Array.from({ length: count }, (_, index) => ({
        '@id': `contest-${index}`, '@type': 'ElectionResults.PartyContest', Name: 'Mayor', ElectionDistrictId: report.GpUnit[0]['@id'],
        ExternalIdentifier: identifiers('local-level', `C-${10000 + index}`),
        ContestSelection: [{ '@id': `selection-${index}`, '@type': 'ElectionResults.CandidateSelection', Note: note, ExternalIdentifier: identifiers(kind, 'S') }],
    }));
    return JSON.stringify(report);
}
const long2500 = [contests(2500, 1, 'a'), contests(2500, 2, 'a')];
const listed = erd.differences(...long2500);
equal('a thousand differences', `${listed.differences.length} ${listed.allDifferences} ${listed.more}`, '1000 2500 true');
equal('none of a thousand differences', [erd.differences(...long2500, { mostDifferences: 0 })].map(({ outcome, status, same }) => `${outcome} ${status} ${same}`).join(),
    'different 1 false');
const wholeList = erd.differences(...long2500, { mostDifferences: null });
equal('all differences', `${wholeList.differences.length} ${wholeList.allDifferences} ${wholeList.more}`, '2500 2500 false');
equal('their keys', wholeList.differences.every(({ key }, index) => key[2] === `C-${10000 + index}`), true);
equal('what differs inside each', JSON.stringify([...new Set(wholeList.differences.map(({ selections }) => JSON.stringify(selections)))]),
    JSON.stringify(['[{"name":["ElectionResults.CandidateSelection",[],false,null,null,["a","","S"]],"how":"member","member":"Note","values":{"left":1,"right":2}}]']));
equal('the keys by pieces', [...erd.differencesByPieces(...long2500)].flatMap(({ differences }) => differences.map(({ key }) => key[2])).join(),
    wholeList.differences.map(({ key }) => key[2]).join());
const upTo = erd.differencesUpTo(300, ...long2500);
equal('differences up to so many bytes', `${upTo.differences.map(({ key }) => key[2])} ${upTo.allDifferences} ${upTo.more}`, 'C-10000,C-10001 2500 true');
equal('no values of selections', wholeList.differences.some((difference) => 'values' in difference), false);
// The text of what differs inside each contest has 600 kB here. Two are more than a megabyte.
const wide = [1, 2].map((note) => contests(3, note, 'a').replaceAll('"Type":"a"', `"Type":"${'a'.repeat(600_000)}"`));
equal('names that are too long together', erd.differences(...wide).differences.map(({ selections }) => selections?.length).join(), '1,,');

// The words of a command line.
const WORDS = ['compare', '--prefer', 'Wähler 🗳', '', 'b'];
equal('a request', JSON.stringify(erd.commandLine(WORDS)), '{"request":{"command":"compare","files":["","b"],"json":false,"prefer":"Wähler 🗳"}}');
equal('no words', JSON.stringify(erd.commandLine([])), '{"request":{"command":"filter","files":[],"json":false,"prefer":null}}');
equal('help, and wrong words', [['--help'], ['nosuch']].map((words) => erd.commandLine(words).status).join(), '0,3');
throws('a word with a zero character', TypeError, () => erd.commandLine(['check', 'a\0b']), 'a word has a zero character');
throws('a word with half a surrogate pair', TypeError, () => erd.commandLine(['check', '\ud800']),
    'a word has half a surrogate pair, so it has no form in UTF-8');

// The forms of a report.
const bytes = readFileSync(new URL('small-ballot.json', EXAMPLES));
const form = readFileSync(new URL('small-ballot.canonical.json', EXAMPLES)).toString();
equal('a Buffer', erd.canonical(bytes).text, form);
equal('a Uint8Array', erd.canonical(new Uint8Array(bytes)).text, form);
equal('a part of an ArrayBuffer', erd.canonical(new Uint8Array(Buffer.concat([Buffer.from('x'), bytes])).subarray(1)).text, form);
equal('an ArrayBuffer', erd.canonical(new Uint8Array(bytes).buffer).text, form);
equal('a string', erd.canonical(bytes.toString()).text, form);
equal('the number of differences', erd.differences(bytes, bytes).allDifferences, 0);
const [renamed] = erd.differences(bytes, bytes.toString().replace('"Governor"', '"Regent"')).differences;
equal('what each report has', JSON.stringify(renamed.values), '{"left":"Governor","right":"Regent"}');
// Two whole numbers that are one number of JavaScript.
const [next] = erd.differences(...['2', '3'].map((last) => oneUnit.replace('"Name"', `"Rank":900719925474099${last},"Name"`))).differences;
equal('what each report has past 2^53', compactText(next.values), '{"left":9007199254740992,"right":9007199254740993}');
equal('no bytes', erd.check(new Uint8Array(0)).outcome, 'not JSON');
const TELLING = [(report, mostFaults) => erd.check(report, { mostFaults }), (report, mostFaults) => erd.canonical(report, { mostFaults }),
    (report, mostFaults) => erd.compare(report, report, { mostFaults }), (report, mostDifferences) => erd.differences(report, report, { mostDifferences })];
equal('whether there is more than is listed', TELLING.map((tell) => [tell('{}', 1).more, tell('{}', 0).more, tell(bytes, 1).more].join()).join(' '),
    Array(4).fill('false,true,false').join(' '));
equal('the report stays as it is', Buffer.compare(bytes, readFileSync(new URL('small-ballot.json', EXAMPLES))), 0);
equal('no preference, and an empty one', [null, ''].map((prefer) => erd.check(bytes, { prefer }).outcome).join(), 'accepted,accepted');

// Names that are written more than once.
for (const { report, names } of JSON.parse(readFileSync(new URL('repeated_names.json', import.meta.url)))) {
    const name = `the repeated names of ${report}`;
    if (names === null) {
        throws(name, SyntaxError, () => repeatedNames(report), 'not JSON');
    } else {
        equal(name, JSON.stringify(repeatedNames(report).map(({ pointer, times }) => [pointer, times])), JSON.stringify(names));
    }
}
const repeated = `[${Array(1001).fill('{"a":1,"a":2}')}]`;
equal('the first 1,000 repeated names, and all', [undefined, { most: null }].map((it) => (({ length, more }) => `${length} ${more}`)(repeatedNames(repeated, it))).join(),
    '1000 true,1001 false');
equal('two repeated names', JSON.stringify(repeatedNames(repeated, { most: 2 }).map(({ place }) => place)), '[[0,"a"],[1,"a"]]');
// Names below a long one: together, their places grow with the square of the report's size.
const below = `{"${'n'.repeat(5_000_000)}":[${Array(3000).fill('{"a":1,"a":2}').join()}]}`;
const few = repeatedNames(below);
equal('repeated names with long places are fewer', JSON.stringify([few.length, few.allNames, few.more]), '[1,3000,true]');
for (const [size, wanted] of [[700_000, 2], [2 ** 20 - 6, 2], [2 ** 20 - 5, 1]]) {
    const { length, allNames, more } = repeatedNames(`{"${'n'.repeat(size)}":[${Array(5).fill('{"a":1,"a":2}')}]}`);
    equal(`fewer repeated names than are asked for, below ${size} letters`, `${length} ${allNames} ${more}`, `${wanted} 5 true`);
}
equal('all repeated names with long places', repeatedNames(below, { most: null }).map(({ place }) => place[1]).join(), [...Array(3000).keys()].join());
throws('no report with repeated names', TypeError, () => repeatedNames(5), 'the report is neither a Uint8Array, nor an ArrayBuffer, nor a text');
throws('repeated names of what is not UTF-8', SyntaxError, () => repeatedNames(new Uint8Array([0x22, 0xff, 0x22])), 'not JSON');

// A list that is longer than a piece: all of it, each entry once.
const manyFaults = new TextEncoder().encode(`{"Odd":[${Array(60_000).fill('1.5')}],${accepted.toString().trim().slice(1)}`);
const everyFault = erd.check(manyFaults, { mostFaults: null }).faults.filter(({ reason }) => reason === 4).map(({ place }) => place[1]);
equal('all faults of a list that is longer than a piece', everyFault.every((position, at) => position === at) && everyFault.length, 60_000);
// Each fault is a piece of its own, so that the last piece has one entry.
const largeFaults = `{"${'n'.repeat(1_100_000)}":[1.5,1.5,1.5],${accepted.toString().trim().slice(1)}`;
equal('pieces of one fault each', [...erd.checkedByPieces(largeFaults)].map(({ faults }) => faults.map(({ place }) => place[1]).join()).join('|'), '0|1|2');
const LARGE = {
    check: erd.check(largeFaults, { mostFaults: null }), canonical: erd.canonical(largeFaults, { mostFaults: null }),
    compare: erd.compare(accepted, largeFaults, { mostFaults: null }), differences: erd.differences(largeFaults, accepted, { mostDifferences: null }),
};
equal('all faults that are pieces of their own', Object.values(LARGE).map(({ faults }) => faults.map(({ place }) => place[1]).join()).join(' '),
    Array(4).fill('0,1,2').join(' '));

// The steps that prepare a copy: the report, the names, the copy, and what is told.
const REPORT = '"@type":"ElectionResults.ElectionReport"';
const NULL_NOTES = { step: 'nulls', done: true, count: 1, changes: [{ pointer: '/Notes', before: 'null', after: null }], left_count: 0, left: [], more: false };
const MARK_GONE = { ...NULL_NOTES, step: 'byte-order-mark', changes: [{ pointer: '', before: '"\ufeff"', after: null }] };
const NUMBER = { ...NULL_NOTES, step: 'numbers', changes: [{ line: 2, column: 5, before: '1.50', after: '1.5' }] };
const PREPARED = [
    ['a step', `{"Notes":null,${REPORT}}`, ['nulls'], `{${REPORT}}`, [NULL_NOTES]],
    ['a step that is not done', `{"Notes":null,${REPORT}}`, ['counts'], `{"Notes":null,${REPORT}}`, []],
    ['no step', `{ "Notes":null,${REPORT}}`, [], `{ "Notes":null,${REPORT}}`, []],
    ['a mark that stays', `\ufeff{"Notes":null,${REPORT}}`, ['nulls'], `\ufeff{${REPORT}}`, [NULL_NOTES]],
    ['a mark that goes', `\ufeff{"Notes":null,${REPORT}}`, stepsOf('removed'), `{${REPORT}}`, [MARK_GONE, NULL_NOTES]],
    ['a mark alone', `\ufeff{ ${REPORT}}`, ['byte-order-mark'], `{ ${REPORT}}`, [MARK_GONE]],
    ['a number that is written in another way', `{${REPORT},"a":1.50}`, ['nulls'], `{${REPORT},"a":1.50}`, []],
    ['a number beside a step', `{"Notes":null,${REPORT},\n"a":1.50}`, ['nulls'], `{${REPORT},"a":1.5}`, [NUMBER, NULL_NOTES]],
    ['what is left', `{${REPORT},"Party":[{"@type":"ElectionResults.Party","@id":"p"}]}`, ['names'],
        `{${REPORT},"Party":[{"@type":"ElectionResults.Party","@id":"p"}]}`,
        [{ ...NULL_NOTES, step: 'names', count: 0, changes: [], left_count: 1, left: [{ pointer: '/Party/0', why: 'noName' }] }]],
    ['a place of the file', `{"a/b":[1,{"x":null}],${REPORT}}`, ['nulls'], `{${REPORT},"a/b":[1,{}]}`,
        [{ ...NULL_NOTES, changes: [{ pointer: '/a~1b/1/x', before: 'null', after: null }] }]],
];
const encoder = new TextEncoder();
for (const [name, report, names, copy, done] of PREPARED) {
    const { bytes: prepared, steps } = new Preparation(encoder.encode(report), erd).prepare(names);
    equal(`prepared, ${name}: the copy`, new TextDecoder('utf-8', { ignoreBOM: true }).decode(prepared), copy);
    equal(`prepared, ${name}: what is told`, JSON.stringify(steps.map(told)), JSON.stringify(done));
}
const others = new Preparation(encoder.encode(`\ufeff{"Notes":null,${REPORT}}`), erd).prepare([], { tellsOthers: true });
equal('prepared: what other steps would do', others.steps.map((step) => `${step.name} ${step.done} ${step.count}`).join(), 'byte-order-mark false 1,nulls false 1');
equal('prepared: what other steps would do is not done', new TextDecoder('utf-8', { ignoreBOM: true }).decode(others.bytes), `\ufeff{"Notes":null,${REPORT}}`);
const aLongList = new Preparation(encoder.encode(`{${REPORT},"a":[${Array(1500).fill('{"x":null}')}]}`), erd).prepare(['nulls']).steps;
equal('prepared: a long list', aLongList.map(({ made, count, more }) => `${made.length} ${count} ${more}`).join(), '1000 1500 true');
const isCounted = `{"@type":"ElectionResults.CandidateSelection","VoteCounts":[{"@type":"ElectionResults.VoteCounts","Count":1}]}`;
const withCounts = `{${REPORT},"Election":[{"@type":"ElectionResults.Election","Contest":[{"@type":"ElectionResults.CandidateContest",`
    + `"ContestSelection":[${Array(1001).fill(isCounted)}]}]}]}`;
equal('prepared: of what is left a thousand places, and how many there are', new Preparation(encoder.encode(withCounts), erd).prepare(['counts']).steps
    .map(told).map(({ step, count, left_count: all, left, more }) => `${step} ${count} ${all} ${left.length} ${more}`).join(), 'counts 0 1001 1000 true');
equal('prepared: what to do about a fault that is left', JSON.stringify([11, 16].map((reason) => remedyOf(reason).steps)), '[["repeated"],[]]');
equal('prepared: the line about a reason that is left', lineOfRemedy(11),
    'reason 11 (repeated): steps that may fix it: repeated; otherwise ask the vendor: Write each entry of a set once. If another one was meant, write that.');
equal('prepared: the line about a reason that no step fixes', lineOfRemedy(9),
    'reason 9 (wrong number of elections): no step fixes it; ask the vendor: Send the report with its election.');
const ofPage = JSON.parse(readFileSync(new URL('../../web/texts.en.json', import.meta.url)));
equal('prepared: the words of the page', JSON.stringify(STEPS.map(({ title, does, loses }) => [title, does, loses])),
    JSON.stringify(STEPS.map(({ name }) => ['', '.does', '.loses'].map((part) => ofPage[`step.${name}${part}`]))));
equal('prepared: the groups of steps', [...new Set(STEPS.map(({ group }) => group))].sort().join(), 'filled-in,removed,view,visible');
equal('prepared: the steps that no ballot shows', stepsOf('removed').join(),
    'byte-order-mark,nulls,unused-ids,outside,counts,devices,coordinates,stray-ids,unused-persons,empty-lists,empty-texts');
equal('prepared: those that change what a voter sees, and those of a view', `${stepsOf('visible')} ${stepsOf('view')}`,
    'gone-candidates,unused-styles unseen,false-flags,other-codes');
const nulled = (name) => encoder.encode(accepted.toString().replace('"Name":"Test"', `"Name":"${name}","OtherType":null`));
for (const [name, names, wanted] of [['Test', ['nulls'], 'same\n'], ['Other', ['nulls'], 'election: member "Name"\n'],
    ['Test', [], 'left: /Election/0/OtherType: wrong kind\n'], ['Test","More":1.5,"Word":"w', ['nulls'], 'right: /Election/0/More: not a whole number\n']]) {
    const { compared, left, right } = comparePrepared(nulled('Test'), nulled(name), names.values(), erd);
    equal(`prepared alike, ${name} by ${names.length}: the comparison`, compared.text, wanted);
    equal(`prepared alike, ${name} by ${names.length}: the copies`, [left, right].map(({ bytes, steps }) => `${steps.length} ${bytes.length}`).join(),
        ['Test', name].map((it) => `${names.length} ${new Preparation(nulled(it), erd).prepare(names).bytes.length}`).join());
}
const underType = fileOf(new URL('prefer-accepted-under-a-preference/', SUITE), 'input.json');
equal('prepared alike: preferred', [{}, { prefer: 'local-level' }].map((it) => comparePrepared(underType, underType, [], erd, it).compared.outcome).join(), 'refused,same');
throws('prepared: no JSON', Error, () => new Preparation(encoder.encode('{'), erd).prepare([]));
throws('prepared: a name that no step has', RangeError, () => new Preparation(encoder.encode('{}'), erd).prepare(['nosuch']));
throws('prepared: a word that names nothing', RangeError, () => erd.prepared('{}', 'nulls,'), 'unknown step');
throws('prepared: half a surrogate pair', TypeError, () => erd.prepared('{}', '\ud800'), 'a name has half a surrogate pair, so it has no form in UTF-8');
throws('prepared: a zero character', RangeError, () => erd.prepared('{}', 'nulls\0'));
equal('prepared: no JSON for the call', erd.prepared('{', 'nulls'), null);

// Numbers as they are written, and no text that begins a line for some programs alone.
const WRITTEN = '{"b":-1.50,"a":[-0,1E5,"\u2028"]}';
equal('a tree as it is written', treeText(readTree(encoder.encode(WRITTEN))), WRITTEN);
equal('line separators are visible', visible('a\u2028b\u2029'), 'a\\u{2028}b\\u{2029}');

// The ballots: those of an example, and which differ where a style has one line less and another style is gone.
const county = fileOf(EXAMPLES, 'county.vendor-a.json');
const other = fileOf(EXAMPLES, 'county.vendor-b.json');
const codeOf = ({ ExternalIdentifier: [{ Value }] }) => Value;
const styles = JSON.parse(county).Election[0].BallotStyle;
const heads = erd.ballots(county).ballots;
equal('ballots: the keys', heads.map(({ key }) => key[2]).join(), 'BS-1,BS-2,BS-3,BS-4');
equal('ballots: the positions', heads.map(({ position }) => codeOf(styles[position])).join(), 'BS-1,BS-2,BS-3,BS-4');
equal('ballots: one of them', erd.ballot(county, heads[1].position).ballot.key.join(), heads[1].key.join());
equal('ballots: its lines', erd.ballot(county, heads[1].position).ballot.lines.length, heads[1].allLines);
const coded = JSON.parse(county);
for (const { ExternalIdentifier: codes } of coded.Election[0].BallotStyle) {
    codes.push({ ...codes[0], Type: 'fips', Value: `F-${codes[0].Value}` });
}
equal('ballots: one of them under a preference', erd.ballot(JSON.stringify(coded), 0, { prefer: 'fips' }).ballot.key.join(), `fips,,F-${codeOf(styles[0])}`);
const ofTwo = fileOf(EXAMPLES, 'two-elections.vendor-a.json');
equal('ballots: the election of each', erd.ballots(ofTwo).ballots.map(({ key, position }) => `${key[2]} ${erd.ballot(ofTwo, position).ballot.election}`).join(),
    'BS-GRANITE local-level,,2026-PRIMARY,BS-HARBOR local-level,,2026-PRIMARY,BS-MEASURES local-level,,2026-REFERENDUM');
equal('ballots: no key of an election', erd.ballot(fileOf(EXAMPLES, 'small-ballot.json'), 0).ballot.election, null);
const byState = (numbers) => {
    const report = JSON.parse(county);
    report.Election[0].BallotStyle.forEach(({ ExternalIdentifier: codes }, at) => codes.push({ ...codes[0], Type: 'state-level', Value: numbers[at] }));
    return JSON.stringify(report);
};
// By the numbers of the state, two styles of the right report have one key.
const twoOfOneNumber = ['1234', '1134'].map(byState);
equal('ballots: the right report is refused under a preference', erd.ballotDifferences(...twoOfOneNumber, { prefer: 'state-level' }).text,
    'right: /Election/0/BallotStyle/1: identifier used twice\n');
equal('ballots: it is accepted without one', erd.ballotDifferences(...twoOfOneNumber).text, 'same ballots\n');
equal('ballots: none there', erd.ballot(county, styles.length).ballot, null);
equal('ballots: of a refused report', erd.ballots('{').text, 'not JSON\n');
equal('ballots: the same', erd.ballotDifferences(county, other).text, 'same ballots\n');
const cut = JSON.parse(other);
cut.Election[0].BallotStyle = cut.Election[0].BallotStyle.filter((style) => codeOf(style) !== 'BS-1');
cut.Election[0].BallotStyle.find((style) => codeOf(style) === 'BS-2').OrderedContent.pop();
const shorter = JSON.stringify(cut);
const notTheSame = erd.ballotDifferences(county, shorter);
equal('ballots: not the same', notTheSame.differences.map(({ key, how }) => `${key[2]} ${how}`).join(), 'BS-1 only left,BS-2 differs');
equal('ballots: what differs on them', notTheSame.differences.flatMap(({ below }) => below).join(), '  removed header ["local-level","","H-END"]');
equal('ballots: their status', notTheSame.status, 1);
equal('ballots: the other way round', erd.ballotDifferences(shorter, county).differences.some(({ how }) => how === 'only right'), true);
// With another number of votes in one contest, the ballots that list it differ.
const votes = JSON.parse(county);
const contest = votes.Election[0].Contest.filter((it) => it.VotesAllowed !== undefined).pop();
const lists = (entries) => entries.some((it) => it.ContestId === contest['@id'] || lists(it.OrderedContent ?? []));
contest.VotesAllowed += 1;
equal('ballots: other words', erd.ballotDifferences(county, JSON.stringify(votes)).differences.map(({ key, how }) => `${key[2]} ${how}`).join(),
    styles.filter((it) => lists(it.OrderedContent)).map((it) => `${codeOf(it)} differs`).sort().join());
const rowsOf = (one, to, left, right) => erd.ballotsBeside(one, to, left, right).ballots.rows;
const at = heads.find(({ key }) => key[2] === 'BS-2').position;
const place = notTheSame.differences.find(({ key }) => key[2] === 'BS-2');
equal('ballots: beside each other', rowsOf(county, shorter, place.left, place.right).map(({ how }) => how).filter((how) => how !== 'both').every((how) => how === 'removed'), true);
equal('ballots: beside itself', rowsOf(county, county, at, at).map(({ how, left, right }) => `${how} ${left} ${right}`).join(),
    Array.from({ length: heads.find(({ position }) => position === at).allLines }, (_, line) => `both ${line} ${line}`).join());
equal('ballots: beside none', erd.ballotsBeside(county, county, at, styles.length).ballots, null);
equal('ballots: beside a refused one', (({ side, outcome, ballots }) => [side, outcome, ballots].join())(erd.ballotsBeside(county, '{', at, at)), 'right,not JSON,');
equal('ballots: the contest with other words', [...new Set(erd.ballotDifferences(county, JSON.stringify(votes)).differences.map(({ below }) => below.join()))].join(),
    '  changed contest ["local-level","","C-SCHOOL"]');
// A ballot with 150 contests beside one with the first of them.
const [longBallot, shortBallot] = [150, 1].map((count) => {
    const report = JSON.parse(contests(150, 1, 'a'));
    report.Election[0].BallotStyle = [{
        '@type': 'ElectionResults.BallotStyle', GpUnitIds: [report.GpUnit[0]['@id']], ExternalIdentifier: report.Election[0].Contest[0].ExternalIdentifier,
        OrderedContent: Array.from({ length: count }, (_, index) => ({ '@type': 'ElectionResults.OrderedContest', ContestId: `contest-${index}` })),
    }];
    return JSON.stringify(report);
});
equal('ballots: all that is gone from one', erd.ballotDifferences(longBallot, shortBallot).differences[0].below.join('\n'),
    Array.from({ length: 149 }, (_, index) => `  removed contest ["local-level","","C-${10001 + index}"]`).join('\n'));
equal('ballots: the right report is refused', erd.ballotDifferences(county, '{').text, 'right: not JSON\n');
// The words: of each object once, and the selections of each contest under the names that ballots have.
const worded = erd.words(county, { mostEntries: null });
const wordsAt = (part, value) => worded.entries.find((entry) => entry.part === part && entry.key?.[2] === value);
equal('words: all are there', `${worded.entries.length} ${worded.more}`, `${worded.allEntries} false`);
equal('words: by pieces', JSON.stringify([...erd.wordsByPieces(county)].flatMap(({ entries }) => entries)), JSON.stringify(worded.entries));
equal('words: their bytes', [...erd.wordsByPieces(county)].map(({ entries, size }) => size === encoder.encode(JSON.stringify(entries)).length).join(), 'true');
equal('words: none is there twice', new Set(worded.entries.map(({ part, key }) => JSON.stringify([part, key]))).size, worded.allEntries);
equal('words: of each part', [...new Set(worded.entries.map(({ part }) => part))].join(), 'unit,party,person,office,header,election,candidate,contest');
const nameOf = (label) => (typeof label === 'string' ? label : label.Text.map(({ Language, Content }) => `${Language} ${Content}`).sort().join());
equal('words: of each candidate', JSON.parse(county).Election[0].Candidate
    .filter((candidate) => nameOf(wordsAt('candidate', codeOf(candidate)).words.BallotName) !== nameOf(candidate.BallotName)).map(codeOf).join(), '');
const contestLines = erd.ballot(county, heads[0].position).ballot.lines.filter(({ what, isListed }) => what === 'contest' && !isListed);
equal('words: the names of selections', contestLines.every(({ key, selections }) =>
    JSON.stringify(selections) === JSON.stringify(wordsAt('contest', key[2]).selections.map(({ name }) => name))), true);
equal('words: the first', (({ entries, more }) => `${entries.length} ${more}`)(erd.words(county, { mostEntries: 2 })), '2 true');
equal('words: of a refused report', (({ outcome, entries, faults }) => [outcome, entries.length, faults.length > 0].join())(erd.words('{}')), 'refused,0,true');
equal('words: of no JSON', erd.words('{').text, 'not JSON\n');
throws('words: no option of another call', TypeError, () => erd.words(county, { mostFaults: 1 }));
for (const position of [-1, 0.5, '0', 2 ** 32]) {
    for (const take of [() => erd.ballot(county, position), () => erd.ballotsBeside(county, county, position, 0), () => erd.ballotsBeside(county, county, 0, position)]) {
        throws(`ballots: no position: ${position}`, TypeError, take, 'the position is not a whole number from 0 on');
    }
}
equal('ballots: the largest position', erd.ballot(county, 2 ** 32 - 1).ballot, null);
counts();
