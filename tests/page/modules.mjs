// Tries the parts of the page without a browser, on the conformance suite and on small files. One line for each case that fails;
// at the end stand the counts.
import { existsSync, readdirSync, readFileSync } from 'node:fs';
import { load } from '../../bindings/js/index.mjs';
import { aligned } from '../../web/scripts/alignment.mjs';
import { isUnchangedLine } from '../../web/scripts/ballot_changes.mjs';
import { csvOf } from '../../web/scripts/csv.mjs';
import { whyNotJson } from '../../web/scripts/diagnosis.mjs';
import { compactText, readExactly } from '../../bindings/js/lib/exact.mjs';
import { excerptOf, Lines } from '../../web/scripts/excerpt.mjs';
import { kindsOf } from '../../web/scripts/fault_kinds.mjs';
import { insideOf } from '../../web/scripts/inside.mjs';
import { whyAlike } from '../../web/scripts/look_alikes.mjs';
import { foundPlaces } from '../../web/scripts/places.mjs';
import { isOnBallots, printOf } from '../../web/scripts/printed.mjs';
import { rowsOfDifference } from '../../web/scripts/rows.mjs';
import { codeOf } from '../../web/scripts/sums.mjs';
import { mergedText, piecesOfBoth } from '../../web/scripts/text_changes.mjs';
import { NotJson, Scanner } from '../../bindings/js/lib/scanner.mjs';
import { trailOf } from '../../web/scripts/trail.mjs';
import { typesIn } from '../../web/scripts/types.mjs';
import { piecesOf } from '../../web/scripts/visible.mjs';
import { ballotsIn, wordsIn } from './answered.mjs';
import { counts, equal, ROOT, TEXTS } from './counted.mjs';

const SUITE = new URL('out/conformance/', ROOT);
const encoder = new TextEncoder();
const erd = await load(readFileSync(new URL('out/portable/erd.wasm', ROOT)));

function fileOf(name, file) {
    const place = new URL(`${name}/${file}`, SUITE);
    return existsSync(place) ? new Uint8Array(readFileSync(place)) : null;
}

const names = readdirSync(SUITE, { withFileTypes: true }).filter((entry) => entry.isDirectory()).map((entry) => entry.name);
for (const name of names) {
    const line = fileOf(name, 'prefer');
    const prefer = line === null ? null : new TextDecoder().decode(line).replace(/\n$/, '');
    const files = ['input.json', 'left.json', 'right.json'].map((file) => fileOf(name, file)).filter((bytes) => bytes !== null);
    files.forEach((bytes, index) => tryFile(`${name}, ${index}`, bytes, prefer));
    if (files.length === 2) {
        tryPair(name, files, prefer);
    }
}

// What stops being JSON for the proved code does so for the page, and each fault has a place in the file.
function tryFile(name, bytes, prefer) {
    const checked = erd.check(bytes, { prefer });
    const { outcome, faults } = checked;
    const lines = fileOf(name.replace(/, \d+$/, ''), 'check.txt');
    if (lines !== null) {
        equal(`${name}: its lines`, checked.text, new TextDecoder().decode(lines));
    }
    equal(`${name}: JSON`, isJson(bytes), outcome !== 'not JSON');
    if (outcome === 'not JSON') {
        const { why } = whyNotJson(bytes);
        equal(`${name}: why it is not`, Object.hasOwn(TEXTS, `notJson.${why}`) && why !== 'unknown', true);
        return;
    }
    const found = foundPlaces(bytes, faults.map((fault) => fault.place));
    equal(`${name}: places`, found.map((one, index) => one !== null && isValueOf(bytes, one, faults[index].place)), faults.map(() => true));
}

function isJson(bytes) {
    try {
        new TextDecoder('utf-8', { fatal: true, ignoreBOM: true }).decode(bytes);
        new Scanner(bytes).whole(null);
        return true;
    } catch (error) {
        if (error instanceof NotJson || error instanceof TypeError) {
            return false;
        }
        throw error;
    }
}

// The text that was found is that of the value which JSON.parse has there.
function isValueOf(bytes, found, place) {
    const value = place.reduce((holder, step) => holder[step], JSON.parse(new TextDecoder().decode(bytes)));
    const { start, end } = found.way.at(-1);
    return JSON.stringify(JSON.parse(new TextDecoder().decode(bytes.subarray(start, end)))) === JSON.stringify(value);
}

// Each difference has two values that differ, and its lines are those of the program.
function tryPair(name, [left, right], prefer) {
    const compared = erd.compare(left, right, { prefer });
    const { outcome, difference } = compared;
    equal(`${name}: its lines`, compared.text, new TextDecoder().decode(fileOf(name, 'compare.txt')));
    if (outcome !== 'same' && outcome !== 'different') {
        return;
    }
    const { differences } = erd.differences(left, right, { prefer, mostDifferences: null });
    equal(`${name}: the first difference`, differences[0]?.line ?? null, difference?.line ?? null);
    const called = [left, right].map((bytes) => wordsIn(bytes, prefer).called);
    const styles = outcome === 'same' ? [] : erd.toldOfBallots('erd_ballot_differences', [left, right], { prefer });
    const below = new Map(styles.map((style) => [String(style.key), style.below]));
    for (const entry of differences) {
        const { rows, there, classes } = rowsOfDifference(entry, called);
        const inside = insideOf(entry, called, (key) => below.get(String(key)) ?? '');
        const isShown = entry.how !== 'member' ? classes[0] !== classes[1]
            : rows === undefined ? inside?.entries.every((one) => one.how !== 'member' || showsValues(one)) : showsValues({ rows, there });
        equal(`${name}: both values of ${entry.line}`, isShown, true);
    }
}

function showsValues({ rows, there }) {
    return rows.some((row) => row.same === false) || there[0] !== there[1];
}

// The parts of a text.
equal('no marks', piecesOf('Añ b\u{1f5f3}'), [{ text: 'Añ b\u{1f5f3}' }]);
equal('marks', piecesOf('a\u202eb\u00a0\n'), [{ text: 'a' }, { mark: 'U+202E' }, { text: 'b' }, { mark: 'U+00A0' }, { mark: 'U+000A' }]);
equal('kept', piecesOf('a\nb', '\n'), [{ text: 'a\nb' }]);
equal('half a surrogate pair', piecesOf('\ud800'), [{ mark: 'U+D800' }]);

// A part of a file, and where it is.
const file = encoder.encode('{\n "a": {\n  "Name": "x",\n  "b": [1, {"Name": "Ä", "Name": "Ö"}]\n }\n}\n');
const [found] = foundPlaces(file, [['a', 'b', 1, 'Name']]);
const lines = new Lines(file);
const excerpt = excerptOf(lines, found.range.start, found.range.end);
equal('the last of two members counts', excerpt.marked, '"Name": "Ö"');
equal('its line', [lines.of(found.range.start), lines.column(found.range.start), excerpt.line], [4, 26, 2]);
equal('its trail', trailOf(found, found.place), [{ name: 'a', number: null, title: null }, { name: 'b', number: 2, title: 'Ö' },
    { name: 'Name', number: null, title: null }]);
const long = excerptOf(new Lines(encoder.encode(`["${'é'.repeat(5000)}"]`)), 1, 10003);
equal('a long part is cut at a character', [long.left > 8000, long.marked.endsWith('é')], [true, true]);
const typed = '{"ExternalIdentifier" : [{"Type":"b"},{"Type":"a"},{"Type":1}],"x":["ExternalIdentifier"]}';
equal('the types of identifiers', typesIn(encoder.encode(typed)), ['a', 'b']);

// Whole numbers that a number of JavaScript can't hold, and names that an object of JavaScript has by itself.
const exact = '{"__proto__":{"n":-9223372036854775808},"a":[18446744073709551615,1,"1234567890123456789"],"constructor":true}';
equal('exact numbers', compactText(readExactly(encoder.encode(exact))), exact);

// Lines beside each other.
const line = (text) => ({ text, like: text });
const rows = aligned(['a', 'b', 'c', 'd'].map(line), ['a', 'c', 'x', 'd'].map(line));
equal('rows', rows.map(({ left, right, same }) => [left?.text ?? null, right?.text ?? null, same]),
    [['a', 'a', true], ['b', null, false], ['c', 'c', true], [null, 'x', false], ['d', 'd', true]]);

// What differs within two texts, and why they look alike.
const marked = (pieces) => pieces.map(({ text, changed }) => (changed ? `[${text}]` : text)).join('');
const words = piecesOfBoth('Ingrith Sablewood', 'Ingrid Sablewood');
equal('what differs in two names', [marked(words.left), marked(words.right)], ['Ingri[th] Sablewood', 'Ingri[d] Sablewood']);
const accents = piecesOfBoth('Jose\u0301 Elm', 'Jos\u00e9 Elm');
equal('a letter is marked with its accent', [marked(accents.left), marked(accents.right)], ['Jos[e\u0301] Elm', 'Jos[\u00e9] Elm']);
equal('two texts as one', mergedText('Vote for one', 'Vote for two'),
    [{ text: 'Vote for ', mark: '' }, { text: 'one', mark: 'removed' }, { text: 'two', mark: 'added' }]);
const alike = [['Jos\u00e9', 'Jose\u0301'], ['Alder', '\u0410lder'], ['a b', 'a\u00a0b'], ['a', 'a\u200b'], ["O'T", 'O\u2019T'], ['a', 'b']];
equal('why they look alike', alike.map(([one, other]) => whyAlike(one, other)), [['spelling'], ['letters'], ['blanks'], ['hidden'], ['marks'], []]);
// What the list of Unicode has as alike: forms of one letter, letters of other alphabets, and letters and digits of one shape.
const confused = [['Ward I', 'Ward l'], ['Ward 1', 'Ward l'], ['C-O1', 'C-01'], ['Stern', 'Stem'], ['Dil\u0131', 'Dili'], ['\uff21nn', 'Ann'], ['Ann\u0410', 'AnnA'],
    ['\u0456', 'i'], ['\u0406', 'I'], ['\u0406', 'l'], ['\uff11', '1'], ['\u0420\u0430t', 'Pat'], ['Ann', 'ann'], ['Ward 1', 'Ward 2']];
equal('why others look alike', confused.map(([one, other]) => whyAlike(one, other)), [['shapes'], ['shapes'], ['shapes'], ['shapes'], ['letters'], ['letters'], ['letters'],
    ['letters'], ['letters'], ['letters', 'shapes'], ['letters'], ['letters'], [], []]);

// Codes for the phone, by the values of Crockford's letters: 80 bits are sixteen of them.
equal('a code of zeros', codeOf('0'.repeat(64)), '0000 0000 0000 0000');
equal('a code of ones', codeOf('f'.repeat(64)), 'ZZZZ ZZZZ ZZZZ ZZZZ');
equal('a code', codeOf(`0123456789abcdef0123${'0'.repeat(44)}`), '04HM ASW9 NF6Y Y093');

// Cells that a spreadsheet would take for formulas, and cells with commas and quotes.
equal('CSV', csvOf([['=1+1', 'a,b', 'say "x"', 5, '-2']]), '\'=1+1,"a,b","say ""x""",5,\'-2\r\n');
equal('CSV: formulas behind white space and in full width', csvOf([['\t=1', '\n=1', '\r=1', '\uff1d1', '\uff0b1', '\uff0d1', '\uff201', '+1', '@a', 'a=1']]),
    '\'\t=1,"\'\n=1","\'\r=1",\'\uff1d1,\'\uff0b1,\'\uff0d1,\'\uff201,\'+1,\'@a,a=1\r\n');

// Faults by their kinds.
const kinds = kindsOf([{ place: ['a', 'VoteCounts'], reason: 5 }, { place: [], reason: 2, name: 'Name' },
    { place: ['b', 'VoteCounts'], reason: 5 }, { place: [0], reason: 1 }]);
equal('kinds of faults', kinds.map(({ reason, faults, names: some }) => [reason, faults.length, some]),
    [[5, 2, [['VoteCounts', 2]]], [2, 1, [['Name', 1]]], [1, 1, []]]);

// How ballots print what differs: it is a word of the object in one file at least; a voter may see it beside words; or no ballot prints it.
const wordly = (names, selections = {}) => ({ words: Object.fromEntries(names.map((name) => [name, 1])), selections: new Map(Object.entries(selections)) });
const member = (name, more = {}) => ({ part: 'contest', how: 'member', member: name, ...more });
const codes = (...some) => some.map((more) => ({ '@type': 'ElectionResults.ExternalIdentifier', Type: 'fips', Value: '1', ...more }));
const identifiersThat = (left, right) => member('ExternalIdentifier', { values: { left, right } });
const sides = [wordly(['Name', '__proto__'], { '["a"]': { IsWriteIn: true } }), wordly(['Name', 'Note'], { '["a"]': {} })];
const insideWith = (...some) => member('ContestSelection', { selections: some.map((one) => ({ how: 'member', name: ['a'], ...one })) });
const newCode = { member: 'ExternalIdentifier', values: { left: codes({}), right: codes({}, { Value: '2' }) } };
const PRINTS = {
    'a word in both files': [member('Name'), 'words'], 'a word in the second file': [member('Note'), 'words'],
    'no word': [member('NumberRunoff'), 'none'], 'no word, with the name of a method': [member('toString'), 'none'],
    'a word with an odd name': [member('__proto__'), 'words'], 'an object of one file': [{ part: 'office', how: 'only right' }, 'words'],
    'another class': [{ part: 'contest', how: 'other class' }, 'beside'], 'another election': [member('ElectionId'), 'beside'],
    'another code': [identifiersThat(codes({}), codes({ Value: '2' })), 'none'],
    'one code more, of one file alone': [identifiersThat(undefined, codes({ OtherType: 'x' })), 'none'],
    'what a code carries': [identifiersThat(codes({ Label: 'x' }), codes({ Label: 'y' })), 'beside'],
    'selections that are not told': [member('ContestSelection'), 'beside'], 'a selection of one file': [insideWith({ how: 'only left' }), 'words'],
    'a word of a selection, which one file has': [insideWith({ member: 'IsWriteIn' }), 'words'],
    'the codes of selections': [insideWith(newCode, newCode), 'none'],
    'the codes of a selection that are too long': [insideWith({ ...newCode, values: null }), 'beside'],
    'a selection that nothing is known of': [insideWith({ member: 'Note', name: ['b'] }), 'beside'],
    'much of selections': [insideWith(newCode, { member: 'IsWriteIn' }, { ...newCode, values: null }), 'beside'],
};
Object.entries(PRINTS).forEach(([name, [difference, print]]) => equal(`how ballots print ${name}`, printOf(difference, sides), print));
equal('how ballots print what has no words', [member('IsTest'), member('ExternalIdentifier', { values: {} })].map((one) => printOf(one, [])), ['beside', 'beside']);

// Which differences the ballots that differ tell: words of what the proved code compares, and of a style what its ballot says.
const told = (part, print = 'words', more = {}, below = '') => isOnBallots({ part, how: 'member', member: 'Name', print, ...more }, () => below);
equal('the words that ballots compare', ['header', 'contest', 'candidate', 'person'].map((part) => told(part)), [true, true, true, true]);
equal('the words that ballots compare in part, or not at all', ['unit', 'party', 'office', 'election', 'report'].map((part) => told(part)),
    [false, false, false, false, false]);
equal('what stands beside words', told('contest', 'beside'), false);
const BELOW = '  changed units\n  moved contest ["a","","  changed parties"]\n';
const ofStyle = (name, below) => told('style', 'beside', { member: name }, below);
equal('a ballot style', [ofStyle('GpUnitIds', BELOW), ofStyle('PartyIds', BELOW), ofStyle('OrderedContent', BELOW), ofStyle('Note', BELOW),
    ofStyle('toString', BELOW), ofStyle('OrderedContent', ''), ofStyle('GpUnitIds', null), told('style', 'words', { how: 'only left' })],
[true, false, true, false, false, false, false, true]);

const county = readFileSync(new URL('examples/county.canonical.json', ROOT), 'utf8');
const wordsOfText = (text) => wordsIn(encoder.encode(text));

// An object with two identifiers is found by the one that the proved code takes for its key: the least, by code points.
const identifiersOf = (values) => values.map((Value) => ({ '@type': 'ElectionResults.ExternalIdentifier', Type: 'local-level', Value }));
const withHeader = (Name, values) => JSON.stringify({ ...JSON.parse(county),
    Header: [...JSON.parse(county).Header, { '@type': 'ElectionResults.Header', ExternalIdentifier: identifiersOf(values), Name }] });
for (const [why, least, other] of [['past 16 bits', '\ufffd', '\u{10000}'], ['a beginning', 'H', 'H-2']]) {
    const texts = ['one', 'two'].map((name) => withHeader(name, [other, least]));
    const [{ part, key }] = erd.differences(...texts.map((text) => encoder.encode(text)), { mostDifferences: null }).differences;
    equal(`the least of two identifiers: ${why}`, [key[2], ...texts.map((text) => wordsOfText(text).thing(part, key)?.words.Name)],
        [least, 'one', 'two']);
}

// Names of selections for a reader: by each part, from the report that has the selection, and without a report.
const ofContest = { part: 'contest', key: ['local-level', '', 'C1'], how: 'member', member: 'ContestSelection' };
const CANDIDATES = 'ElectionResults.CandidateSelection';
const K12 = ['local-level', '', 'K-12'];
const inTwo = [county, county.replaceAll('Ingrith', 'Ingrid')].map(wordsOfText);
const NO_NAMES = [() => undefined, () => undefined];
const ofBoth = inTwo.map(({ called }) => called);
const namesOf = (some, ...selections) => insideOf({ ...ofContest, selections }, some).entries.map(({ name }) => name);
const ofCandidates = (how, keys, isWriteIn, order = null, identifier = null) => ({ how, name: [CANDIDATES, keys, isWriteIn, order, null, identifier] });
equal('the name of a selection, from its own side', namesOf(ofBoth, ...['only left', 'only right', 'member'].map((how) => ofCandidates(how, [K12], false))),
    ['Ingrith', 'Ingrid', 'Ingrith'].map((name) => `Candidate “${name} Sablewood” (local-level K-12)`));
equal('the name of a selection without a report',
    namesOf(NO_NAMES, ofCandidates('only left', [K12, ['a', 'b', 'c']], true, 18446744073709551615n, ['fips', '', '7'])),
    ['local-level K-12 + a b c + write-in (place 18446744073709551615, fips 7)']);
equal('a selection without a name', namesOf(ofBoth, ofCandidates('only left', [], false, 0)), ['no candidate, party or label (place 0)']);
const languages = [['en', 'Yes'], ['es', 'Sí']].map(([Language, Content]) => ({ '@type': 'ElectionResults.LanguageString', Content, Language }));
equal('a selection with a label', namesOf(ofBoth, ...['Yes', { '@type': 'ElectionResults.InternationalizedText', Text: languages }].map((label) => (
    { how: 'only left', name: ['ElectionResults.BallotMeasureSelection', [], false, null, JSON.stringify(label), null] }))), ['“Yes”', 'en: “Yes” + es: “Sí”']);
const [party] = inTwo[0].of('party').values();
equal('a selection of a party', namesOf(ofBoth, { how: 'only left', name: ['ElectionResults.PartySelection', [party.key], false, null, null, null] }),
    [`Party “${party.title}” (${party.key.filter(Boolean).join(' ')})`]);
const many = insideOf({ ...ofContest, selections: new Array(101).fill({ ...ofCandidates('member', [], true), member: 'Note' }) }, ofBoth);
equal('many selections', [many.count, many.entries.length, many.entries[0]], [101, 100, { how: 'member', member: 'Note', name: 'write-in' }]);
equal('selections that are not told', insideOf(ofContest, ofBoth), null);
const others = [{ member: 'Name' }, { part: 'party' }, { how: 'only left', member: undefined }];
equal('a difference that has none', others.map((other) => insideOf({ ...ofContest, ...other }, ofBoth) ?? 'none'), ['none', 'none', 'none']);

// A ballot of two files, in which a name is changed and two selections have changed places.
const moved = county.replace('Ingrith', 'Ingrid').replace('"cs1-2","cs1-3","cs1-4"', '"cs1-3","cs1-2","cs1-4"');
const ballots = ballotsIn(...[county, moved].map((text) => encoder.encode(text)));
equal('the languages of the ballots', ballots.languages(), ['en-US', 'es-US']);
equal('how many ballots differ', ballots.styles({ words: '', group: null, from: 0, count: 0 }).counts, { all: 4, differing: 3, same: 1 });
equal('the ballots of a precinct', ballots.styles({ words: 'birch', group: 'all', from: 0, count: 9 }).entries.map(({ code }) => code), ['local-level BS-1']);
// Each of the three has the contest of the candidate, and one has the contest whose selections have changed places.
const below = ballots.styles({ words: '', group: 'differing', from: 0, count: 9 }).entries
    .map((entry) => entry.below.map((text) => text.replace(/(selection) .*/, '$1')));
const school = '  changed contest ["local-level","","C-SCHOOL"]';
equal('what differs on these ballots', below, [['  changed contest ["local-level","","C-EXEC"]', '    moved selection', school], [school], [school]]);
const [{ key: first }] = ballots.heads();
const selections = ballots.ballot({ key: first }).items.flatMap((item) => item.selections ?? []);
equal('moved selections', selections.filter(({ mark }) => mark === 'moved').map(({ from, to }) => [from, to]), [[1, 2]]);
equal('reworded selections', selections.flatMap(({ lines: some }) => some.flatMap(({ texts }) => texts.flatMap(({ pieces }) => pieces)))
    .filter(({ mark }) => mark !== '').map(({ text, mark }) => [text, mark]), [['Ingrith', 'removed'], ['Ingrid', 'added']]);
equal('a ballot of one file has no marks', ballotsIn(encoder.encode(county)).ballot({ key: first }).items
    .flatMap((item) => [item, ...item.selections ?? []]).filter(({ mark, lines: some }) => mark !== '' || !some.every(isUnchangedLine)), []);

counts();
