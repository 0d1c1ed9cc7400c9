// Tries what the page's worker answers of files, without a browser: on the conformance suite, whose answers are known, and on the
// examples, whose ballots are written out here. One line for each case that fails; at the end stand the counts.
import { createHash } from 'node:crypto';
import { existsSync, readFileSync, readdirSync } from 'node:fs';
import { load } from '../../bindings/js/index.mjs';
import { Judgement } from '../../web/scripts/judging.mjs';
import { surveyed } from '../../web/scripts/survey.mjs';
import { counts, equal, ROOT } from './counted.mjs';

const SUITE = new URL('out/conformance/', ROOT);
const erd = await load(readFileSync(new URL('out/portable/erd.wasm', ROOT)));
const quiet = () => {};
const sumOf = (bytes) => createHash('sha256').update(bytes).digest('hex');
const textOf = (bytes) => new TextDecoder('utf-8', { ignoreBOM: true }).decode(bytes);
const linesOf = (text) => text.split('\n').slice(0, -1);
const OUTCOMES = { 'accepted\n': 'accepted', 'not JSON\n': 'notJson' };

function judgementOf(files, prefer = null) {
    return new Judgement(erd, files.map((bytes, at) => new File([bytes], `${'ab'[at]}.json`)), prefer);
}

// ---- the suite

const read = (name, file) => (existsSync(new URL(`${name}/${file}`, SUITE)) ? readFileSync(new URL(`${name}/${file}`, SUITE)) : null);
const names = readdirSync(SUITE, { withFileTypes: true }).filter((entry) => entry.isDirectory()).map(({ name }) => name);
for (const name of names) {
    const line = read(name, 'prefer');
    const prefer = line === null ? null : textOf(line).replace(/\n$/, '');
    const input = read(name, 'input.json');
    if (input !== null && !/^\s*</.test(textOf(input))) {
        await tryOne(name, input, prefer);
    }
    const [left, right] = ['left.json', 'right.json'].map((file) => read(name, file));
    if (left !== null && right !== null) {
        await tryTwo(name, [left, right], prefer);
    }
}

// What is told of one file: the outcome, the lines, the sums and the form.
async function tryOne(name, input, prefer) {
    const judgement = judgementOf([input], prefer);
    const { files: [told], comparison } = await judgement.verdict(quiet);
    const [lines, form] = ['check.txt', 'canonical.json'].map((file) => read(name, file));
    if (lines === null || told.converted !== undefined) {
        return;
    }
    const text = textOf(lines);
    equal(`${name}: outcome`, [told.outcome, told.size, comparison], [OUTCOMES[text] ?? 'refused', input.length, null]);
    equal(`${name}: lines`, textOf(Buffer.concat(judgement.lines({ index: 0 }))), text);
    const [sums] = await judgement.sums({}, quiet);
    const formTold = form === null ? undefined : { size: form.length, sha256: sumOf(form) };
    equal(`${name}: sums`, [sums.sha256, sums.canonical], [sumOf(input), formTold]);
    const made = judgement.canonical({ index: 0 }, quiet);
    equal(`${name}: form`, made && textOf(made), form && textOf(form));
    equal(`${name}: a part`, textOf(judgement.part({ index: 0, start: 1, end: 4 })), textOf(input.subarray(1, 4)));
    const isOfResults = /(^|\n)\/Status: not pre-election\n/.test(text);
    equal(`${name}: the status of a file that is not from before the election`, told.status, isOfResults ? JSON.parse(textOf(input)).Status : undefined);
    if (told.outcome === 'refused') {
        tryFaults(name, judgement, text, told.faults);
    } else if (told.outcome === 'accepted') {
        tryBallots(name, judgement);
    }
    if (!/^(reading|prefer|canonical)/.test(name)) {
        return;
    }
    const survey = await surveyed(erd, new File([input], 'a.json'), prefer, null);
    equal(`${name}: among many`, [survey.outcome, survey.faults, survey.sha256, survey.canonical], [told.outcome, told.faults, sumOf(input), formTold]);
}

// Each line of each ballot has words, and so has each of its selections: what the proved code tells is found among the words.
function tryBallots(name, judgement) {
    const { entries } = judgement.styles({ words: '', group: 'all', from: 0, count: 99 }, quiet);
    const items = entries.flatMap(({ key }) => judgement.ballot({ key, next: null }, quiet).items);
    const wordless = items.flatMap((item) => [item, ...item.selections ?? []]).filter(({ lines }) => lines.length === 0);
    equal(`${name}: the words of its ballots`, wordless, []);
}

// Each fault is of one kind, with its pointer as the program writes it.
function tryFaults(name, judgement, text, count) {
    const { kinds, told } = judgement.kinds({ index: 0 });
    equal(`${name}: kinds`, [count, told, kinds.reduce((sum, kind) => sum + kind.count, 0)], [told, told, count]);
    const first = judgement.firstLines({ index: 0, count: 2 });
    equal(`${name}: the first lines`, [text.startsWith(first.map((one) => `${one}\n`).join('')), first.length], [true, Math.min(2, count)]);
    const places = kinds.flatMap(({ reason, count: all }) => [...judgement.places({ index: 0, reason, from: 0, count: 1 }),
        ...judgement.places({ index: 0, reason, from: 1, count: all })]);
    const missing = places.filter(({ pointer }) => !`\n${text}`.includes(`\n${pointer}: `));
    equal(`${name}: places`, [places.length, missing.length], [count, 0]);
}

// What is told of two files: whether they say the same, which is refused, and the list of the differences.
async function tryTwo(name, files, prefer) {
    const judgement = judgementOf(files, prefer);
    const { files: told, comparison } = await judgement.verdict(quiet);
    if (told.some(({ converted }) => converted !== undefined)) {
        return;
    }
    const text = textOf(read(name, 'compare.txt'));
    const refused = told.findIndex(({ outcome }) => outcome !== 'accepted');
    equal(`${name}: which is refused`, refused, /^left: /.test(text) ? 0 : /^right: /.test(text) ? 1 : -1);
    if (refused >= 0) {
        equal(`${name}: no comparison`, comparison, null);
        return;
    }
    equal(`${name}: the same`, [comparison.same, comparison.first?.line ?? null], [text === 'same\n', text === 'same\n' ? null : text.slice(0, -1)]);
    const sums = await judgement.sums({}, quiet);
    equal(`${name}: the sums of the forms`, sums[0].canonical.sha256 === sums[1].canonical.sha256, text === 'same\n');
    tryBallots(name, judgement);
    const differing = judgement.styles({ words: '', group: 'differing', from: 0, count: 99 }, quiet).entries;
    equal(`${name}: each ballot that differs has a sentence`, judgement.onBallots({}, quiet).count > 0, differing.length > 0);
    const differences = read(name, 'differences.txt');
    if (differences !== null && !comparison.same) {
        const listed = linesOf(textOf(differences));
        const { count, entries } = judgement.begun({ most: 1 }, quiet);
        equal(`${name}: the list begins`, [count, entries[0].line], [listed.length, listed[0]]);
    }
}

// ---- files that are not judged

const long = judgementOf([Buffer.alloc(67108865, ' '), Buffer.from('{')]);
equal('a file that is too long, and one that is not JSON', (await long.verdict(quiet)).files.map(({ outcome, size }) => [outcome, size]),
    [['tooLong', 67108865], ['notJson', 1]]);
const gone = new Judgement(erd, [{ name: 'a.json', size: 5, stream: () => { throw new Error('gone'); } }], null);
equal('a file that is gone', (await gone.verdict(quiet)).files.map(({ outcome, size }) => [outcome, size]), [['unreadable', 5]]);
equal('it has no sums', await gone.sums({}, quiet), [{}]);

// ---- the examples

const example = (name) => readFileSync(new URL(`examples/${name}`, ROOT));
const [one, two] = ['county.vendor-a.json', 'county.vendor-b.json'].map(example);
// What is said of a file in XML is said of the file that was chosen, and not of the JSON that was made from it.
const ofXml = await surveyed(erd, new File([one], 'a.xml'), null, { isBorn: false, size: 7, sha256: 'f'.repeat(64) });
equal('a file that was converted has its own size and sum', [ofXml.outcome, ofXml.size, ofXml.sha256, ofXml.canonical.sha256],
    ['accepted', 7, 'f'.repeat(64), sumOf(example('county.canonical.json'))]);
const changed = Buffer.from(textOf(two).replace('Ingrith Sablewood', 'Ingrid Sablewood').replace('"VotesAllowed":1', '"VotesAllowed":2'));
const pair = judgementOf([one, changed]);
const verdict = await pair.verdict(quiet);
equal('a changed name and number: the verdict', [verdict.comparison.same, verdict.comparison.first.how], [false, 'member']);
const list = pair.list({}, quiet);
const members = pair.more({ from: 0, count: 9 }, quiet).map(({ part, member, rows }) => [part, member,
    ...rows.filter(({ same }) => same === false).map(({ left, right }) => `${left.text} / ${right.text}`)]);
equal('a changed name and number: the list', [list.count, list.listed, list.kinds.map(({ count }) => count)], [2, 2, [1, 1]]);
equal('a changed name and number: the values', members.map(([part, member]) => `${part} ${member}`), ['candidate BallotName', 'contest VotesAllowed']);
equal('a changed name: both values', members[0].slice(2), ['“Ingrith Sablewood” / “Ingrid Sablewood”']);
equal('a changed number: both values', members[1].slice(2), ['1 / 2']);
const found = pair.someOnBallots({ words: '', from: 0, count: 9 }, quiet).entries;
equal('a changed name and number: on the ballots', found.map(({ what, role, left, right }) => [what, role, left, right].join(' | ')).sort(),
    ['choice.words | name | Ingrith Sablewood | Ingrid Sablewood', 'words | votes | Vote for 1 | Vote for up to 2']);
equal('a changed name and number: words find one', pair.someOnBallots({ words: 'ingrid', from: 0, count: 9 }, quiet).count, 1);

// Each party of a file has another code of a type that comes first: the objects are matched by their usual type again.
function withCodes(before) {
    const report = JSON.parse(textOf(one));
    const code = (Value) => ({ '@type': 'ElectionResults.ExternalIdentifier', Type: 'a-vendor', Value });
    report.Party.forEach((party, at) => party.ExternalIdentifier.push(code(`${before}${at}`)));
    return report;
}
const coded = judgementOf(['x', 'y'].map((before) => Buffer.from(JSON.stringify(withCodes(before)))));
await coded.verdict(quiet);
equal('another type under which more objects are matched', coded.betterType({ types: ['a-vendor', 'local-level'] }, quiet),
    { type: 'local-level', fewer: 0, count: 2 * withCodes('x').Party.length });
equal('no other type where all objects are matched', pair.betterType({ types: ['local-level'] }, () => { throw new Error('it is tried'); }), null);

// One vendor has codes of its own beside the others: without these, the files say the same. An object that has no other code keeps its own.
const own = JSON.parse(textOf(one));
const code = (Value) => ({ '@type': 'ElectionResults.ExternalIdentifier', Type: 'other', OtherType: 'vendor', Value });
own.Party.forEach((party, at) => party.ExternalIdentifier.push(code(`P${at}`)));
const alone = JSON.parse(JSON.stringify(own));
alone.Header[0].ExternalIdentifier = [code('H')];
// The header is another one then, and so is what each ballot that has it lists.
const changes = 2 + own.Election[0].BallotStyle.filter((style) => JSON.stringify(style).includes(`"HeaderId":"${own.Header[0]['@id']}"`)).length;
for (const [what, made, wanted] of [['other codes', own, [[['other vendor'], []], 0]], ['a code and no other', alone, [[['other vendor'], []], changes]]]) {
    const view = judgementOf([Buffer.from(JSON.stringify(made)), two]);
    await view.verdict(quiet);
    const { types, count } = view.ownView({}, quiet);
    equal(`without ${what}`, [types, count], wanted);
}

// What a file has, counted here by its arrays.
const whole = judgementOf([one]);
await whole.verdict(quiet);
const report = JSON.parse(textOf(one));
const [election] = report.Election;
const overview = whole.overview({}, quiet);
equal('what a file has', overview.counts, { ...overview.counts, style: election.BallotStyle.length, contest: election.Contest.length,
    candidate: election.Candidate.length, party: report.Party.length, office: report.Office.length, person: report.Person.length,
    header: report.Header.length, unit: report.GpUnit.length });
const precincts = report.GpUnit.filter(({ Type }) => /precinct/.test(Type));
const onStyles = new Set(election.BallotStyle.flatMap((style) => style.GpUnitIds));
equal('its precincts, each on one ballot style', [overview.precincts, precincts.every((unit) => onStyles.has(unit['@id']))],
    [{ all: precincts.length, none: 0, several: 0 }, true]);
equal('each contest is on a ballot', overview.unlisted, { count: 0, names: [] });
equal('its languages', whole.languages({}, quiet), ['en-US', 'es-US'].filter((tag) => textOf(one).includes(`"${tag}"`)));
const [facts] = await whole.sums({}, quiet);
equal('its head', [facts.isTest, facts.envelope.Issuer, facts.elections.map(({ start, end }) => `${start} ${end}`)],
    [report.IsTest === true, report.Issuer, [`${election.StartDate} ${election.EndDate}`]]);
const codesOf = (judgement, group, words = '') => judgement.styles({ words, group, from: 0, count: 99 }, quiet).entries.map(({ code }) => code);
const CODES = election.BallotStyle.map((style) => `local-level ${style.ExternalIdentifier[0].Value}`).sort();
equal('its ballots', codesOf(whole, 'all').sort(), CODES);
equal('the ballots that differ, and the others', [...codesOf(pair, 'differing'), ...codesOf(pair, 'same')].sort(), CODES);
equal('a ballot by its code', codesOf(whole, 'all', CODES[1]), [CODES[1]]);
const linesIn = ({ lines, selections = [] }) => [...lines, ...selections.flatMap((selection) => selection.lines)];
const piecesIn = ({ texts }) => texts.flatMap(({ pieces }) => pieces.map(({ text, mark }) => `${mark} ${text}`));
const { key } = pair.styles({ words: '', group: 'differing', from: 0, count: 1 }, quiet).entries[0];
const printed = pair.ballot({ key, next: null }, quiet).items.flatMap(linesIn).flatMap(piecesIn);
equal('a ballot of both files has both names', printed.filter((text) => /Ingri(th|d)$/.test(text)), ['removed Ingrith', 'added Ingrid']);

// ---- what a voter sees of a change: how many ballots differ, what they leave out that a voter may see, and what no ballot prints

const otherCode = (more = {}) => ({ '@type': 'ElectionResults.ExternalIdentifier', Type: 'state-level', Value: '9', ...more });
const another = (object, Value, more = {}) => ({ ...object, ExternalIdentifier: [{ ...object.ExternalIdentifier[0], Value }], ...more });
const VOTER = {
    'the mark of a district': [({ GpUnit: [precinct] }) => { precinct.IsDistricted = true; }, 0, [], ['unit IsDistricted']],
    'the mark of a district, off in one file': [({ GpUnit: [precinct] }) => { precinct.IsDistricted = false; }, 0, [], ['unit IsDistricted']],
    'the type of a precinct': [({ GpUnit: [precinct] }) => { precinct.Type = 'ward'; }, 1, ['unit Type'], []],
    'the type of a county': [({ GpUnit: [, county] }) => { county.Type = 'city'; }, 0, ['unit Type'], []],
    'what a precinct carries': [({ GpUnit: [precinct] }) => { precinct.Phone = '555'; }, 1, ['unit Phone'], []],
    'the day on which a candidate filed': [(_, { Candidate: [cy] }) => { cy.FileDate = '2026-05-01'; }, 0, [], ['candidate FileDate']],
    'the slogan of a candidate': [(_, { Candidate: [cy] }) => { cy.CampaignSlogan = 'Roofs first'; }, 1, [], []],
    'the work of a person': [({ Person: [ann] }) => { ann.Profession = 'Teacher'; }, 1, [], []],
    'a person whom nobody names': [(one) => { one.Person.push(another(one.Person[0], 'Q2', { '@id': 'q2' })); }, 0, ['person only right'], []],
    'the name of a party': [({ Party: [blue] }) => { blue.Name = 'Azure'; }, 1, ['party Name'], []],
    'a party that is a coalition': [({ Party: [blue] }) => { blue['@type'] = 'ElectionResults.Coalition'; }, 0, ['party other class'], []],
    'the name of a header': [({ Header: [state] }) => { state.Name = 'Nation'; }, 1, [], []],
    'the name of an office': [({ Office: [governor] }) => { governor.Name = 'Mayor'; }, 0, ['office Name'], []],
    'another code of an office': [({ Office: [governor] }) => { governor.ExternalIdentifier.push(otherCode()); }, 0, [], ['office ExternalIdentifier']],
    'a note on another code of an office': [({ Office: [governor] }) => { governor.ExternalIdentifier.push(otherCode({ Note: 'x' })); }, 0,
        ['office ExternalIdentifier'], []],
    'the name of the election': [(_, election) => { election.Name = 'Trial'; }, 0, ['election Name'], []],
    'the names of the election and of a candidate': [(_, election) => {
        election.Name = 'Trial';
        election.Candidate[0].BallotName = 'Cyd';
    }, 1, ['election Name'], []],
    'a test': [(one) => { one.IsTest = true; }, 0, ['report IsTest'], []],
    'how many go to a runoff': [(_, { Contest: [governor] }) => { governor.NumberRunoff = 2; }, 0, [], ['contest NumberRunoff']],
    'a choice that says that it is for no write-in': [(_, { Contest: [governor] }) => { governor.ContestSelection[1].IsWriteIn = false; }, 1, [], []],
    'the order of choices': [(_, { BallotStyle: [style] }) => { style.OrderedContent[0].OrderedContent[0].OrderedContestSelectionIds.reverse(); }, 1, [], []],
    'who gets a ballot, and a note on it': [(_, { BallotStyle: [style] }) => { Object.assign(style, { GpUnitIds: ['a1', 'a2'], Note: 'x' }); }, 1,
        ['style Note'], []],
    'a note on the content of a ballot': [(_, { BallotStyle: [style] }) => { style.OrderedContent[1].Note = 'x'; }, 0, ['style OrderedContent'], []],
    'another code of a ballot style': [(_, { BallotStyle: [style] }) => { style.ExternalIdentifier.push(otherCode()); }, 0, ['style ExternalIdentifier'], []],
    'another ballot style': [(_, election) => { election.BallotStyle.push(another(election.BallotStyle[0], 'S2')); }, 1, [], []],
};
const small = example('small-ballot.json');
for (const [name, [change, differing, leftOut, noBallot]] of Object.entries(VOTER)) {
    const made = JSON.parse(textOf(small));
    change(made, made.Election[0]);
    const judgement = judgementOf([small, Buffer.from(JSON.stringify(made))]);
    await judgement.verdict(quiet);
    const { seen } = judgement.list({}, quiet);
    equal(`a voter: ${name}`, [seen.ballots.differing, ...[seen.leftOut, seen.noBallot].map((kinds) => kinds.map(({ part, how, member }) => `${part} ${member ?? how}`))],
        [differing, leftOut, noBallot]);
}

// ---- two elections in one file: each voter gets a ballot in each of them

async function judgementOfTwo(changed) {
    const report = JSON.parse(readFileSync(new URL('examples/two-elections.vendor-a.json', ROOT)));
    const [primary] = report.Election;
    primary.EndDate = '2026-06-03';
    primary.BallotStyle.forEach((style) => delete style.PartyIds);
    changed(primary);
    const judgement = judgementOf([Buffer.from(JSON.stringify(report))]);
    await judgement.verdict(quiet);
    return judgement;
}

const ofEach = await judgementOfTwo((primary) => primary.BallotStyle.pop());
equal('a ballot style in each election is one for each voter', ofEach.overview({}, quiet).precincts, { all: 3, none: 0, several: 0 });
// Each names its own election, which the ballot itself tells.
const firstOn = (style) => ofEach.ballot({ key: style, next: null }, quiet).lines.slice(0, 2).map(({ role, texts }) => `${role} ${texts[0].pieces[0].text}`);
const { entries: stylesOfBoth } = ofEach.styles({ words: '', group: 'all', from: 0, count: 9 }, quiet);
equal('each ballot has the name of its election', stylesOfBoth.map(({ key: style, code }) => [code, ...firstOn(style)]), [
    ['local-level BS-HARBOR', 'election Primary Election', 'date 2026-06-02'], ['local-level BS-MEASURES', 'election County Referendum', 'date 2026-06-02']]);
equal('two of one election are not', (await judgementOfTwo(() => {})).overview({}, quiet).precincts, { all: 3, none: 0, several: 3 });
const [{ elections }] = await ofEach.sums({}, quiet);
equal('both elections, each with its days', elections.map(({ name, start, end }) => `${name} ${start} ${end}`),
    ['Primary Election 2026-06-02 2026-06-03', 'County Referendum 2026-06-02 2026-06-02']);
counts();
