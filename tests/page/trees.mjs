// Holds that the page shows nothing of a difference or a ballot that is not in an answer of the proved code: which modules read the tree
// of a report, which ask the proved code, what the answers are made of, and that neither these nor the page itself reach a tree. The
// modules are listed here by hand. One line for each case that fails; at the end stand the counts.
import { readdirSync, readFileSync } from 'node:fs';
import { counts, equal, ROOT } from './counted.mjs';

// The modules that read a report as a tree, or walk through one.
const READ_TREES = {
    'judging.mjs': 'reads the form of one file for its card',
    'own_view.mjs': 'makes copies without identifiers, which the proved code compares',
    'unprinted.mjs': 'what the ballots of one file leave out, for its card',
};
// The modules that ask the proved code.
const ASK_THE_CORE = ['judging.mjs', 'report_words.mjs', 'side.mjs'];
// The modules that read the bytes of a file: places and parts of it, the envelope, the notes, the status and types of identifiers.
const READ_BYTES = ['copy_mark.mjs', 'diagnosis.mjs', 'envelope.mjs', 'excerpt.mjs', 'excerpts.mjs', 'judging.mjs', 'other_file.mjs', 'places.mjs',
    'preparing.mjs', 'report_words.mjs', 'side.mjs', 'types.mjs'];

const folder = new URL('web/scripts/', ROOT);
const names = readdirSync(folder).filter((name) => name.endsWith('.mjs'));
const codeOf = (name) => readFileSync(new URL(name, folder), 'utf8').replace(/^ *(\/\/|\/\*\*|\*).*$/gm, '');
const importsOf = (text) => [...text.matchAll(/^import .* from '(.*)';$/gm)].map(([, place]) => place.split('/').at(-1));
const modules = new Map(names.map((name) => [name, codeOf(name)]));
const having = (pattern) => [...modules].filter(([, text]) => pattern.test(text)).map(([name]) => name).sort();
const imports = new Map([...modules].map(([name, text]) => [name, importsOf(text)]));
const importing = (name) => [...imports].filter(([, some]) => some.includes(name)).map(([one]) => one).sort();

/** All modules that these need, with them. */
function neededBy(...some) {
    const found = new Set(some);
    for (const one of found) {
        (imports.get(one) ?? []).forEach((name) => found.add(name));
    }
    return [...found].filter((name) => modules.has(name));
}

equal('the modules that read trees', having(/\breadExactly\(|\breport\.Election\b|\{ Election \}|'ExternalIdentifier';/), Object.keys(READ_TREES).sort());
equal('the modules that ask the proved code', having(/\berd\.(?!html|wasm)\w+\(/), ASK_THE_CORE);
equal('the modules that read bytes', [...new Set(['places.mjs', ...importing('places.mjs'), ...importing('scanner.mjs')])].sort(), READ_BYTES);

// The answers on differences, on ballots and on what a file has are made of what the proved code tells: no module that they need reads a
// tree or bytes, or asks for anything else.
const ANSWERS = ['ballot_answers.mjs', 'ballot_findings.mjs', 'difference_groups.mjs', 'overview.mjs'];
const READERS = [...Object.keys(READ_TREES), ...ASK_THE_CORE, ...READ_BYTES];
equal('what the answers need reads no file', neededBy(...ANSWERS).filter((name) => READERS.includes(name)), []);
ANSWERS.forEach((name) => equal(`who makes the answers of ${name}`,
    importing(name).filter((one) => !ANSWERS.includes(one) && !['inside.mjs', 'printed.mjs'].includes(one)), ['judging.mjs']));
// The page itself shows answers of the worker, and reads no report.
equal('what the page needs reads no report', neededBy('page.mjs').filter((name) => [...Object.keys(READ_TREES), ...ASK_THE_CORE].includes(name)), []);

// They are made with these answers of the proved code, and with no other.
const judging = modules.get('judging.mjs');
const madeWith = (name) => [...judging.matchAll(new RegExp(`new ${name}\\((.*)\\);`, 'g'))].map(([, words]) => words);
equal('with what the answers on ballots are made', madeWith('BallotAnswers'),
    ['this.words(tell), this.differingBallots(), (...question) => this.toldOfBallots(...question)']);
equal('with what the sentences on ballots are made', madeWith('BallotFindings'), ['this.ballots(tell)']);
equal('with what the list of differences is made', madeWith('Differences'),
    ['differences, allDifferences, (key) => this.belowOf(key), words && words.map(({ called }) => called)']);
equal('what of a difference ballots print', [importing('printed.mjs'), modules.get('difference_groups.mjs').match(/(?<=print: )printOf\(.*?\)\)/g)],
    [['difference_groups.mjs'], ['printOf(entry, this.thingsOf(entry))']]);
equal('where the words come from', [judging.match(/this\.keptWords \?\?= .*;/g), modules.get('side.mjs').match(/(?<=return )wordsOf\(.*\);/g)],
    [['this.keptWords ??= this.sides.map((side) => side.words(this.erd, this.prefer, tell));'], ['wordsOf(erd, this.bytes, prefer);']]);
equal('what is told of one file beside that', [importing('unprinted.mjs'), [...judging.matchAll(/this\.unprinted\(/g)].length, madeWith('Overview')],
    [['judging.mjs'], 1, ['this.words(tell)[0], this.ballots(tell).toldHeads(0), this.unprinted(tell)']]);
const [, listing] = /differingBallots\(\) \{([^}]*\}[^}]*)\}/.exec(judging);
equal('what the list of ballots that differ is', listing.includes("'erd_ballot_differences'"), true);
const CALLS = ['erd_ballot', 'erd_ballots', 'erd_ballots_beside'];
equal('what the answers ask', [...new Set(modules.get('ballot_answers.mjs').match(/(?<=')erd_\w+(?=')/g))].sort(), CALLS);
// Nothing but the proved code says what ballots have on them, in which order, and who gets them. A name in quotes is that of a member.
const CONTENT = /(?<!')\b(OrderedContent|OrderedContestSelectionIds|HeaderId|ContestId|GpUnitIds|BallotStyle)\b(?!')/;
neededBy(...ANSWERS).forEach((name) => equal(`${name} reads no content of a ballot`, CONTENT.test(modules.get(name)), false));
counts();
