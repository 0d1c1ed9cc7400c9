// Tries the section of ballots and what is printed of it, by answers that are written out here: the list and its words, a ballot in parts, what
// differs, and which ballots a press of the button prints. One line for each case that fails; at the end stand the counts.
import { below } from './elements.mjs';
import { BallotList } from '../../web/scripts/ballot_list.mjs';
import { BallotSentences } from '../../web/scripts/ballot_sentences.mjs';
import { Sheets } from '../../web/scripts/sheets.mjs';
import { orderOfKeys } from '../../bindings/js/lib/order.mjs';
import { counts, equal } from './counted.mjs';

const [ONE, OTHER] = ['a', 'b'].map((digit) => digit.repeat(64));
document.body = document.createElement('body');
document.documentElement = { dataset: {} };
globalThis.getComputedStyle = () => ({ lineHeight: '10' });
globalThis.addEventListener = (_name, call) => {
    globalThis.afterPrint = call;
};
const style = (code, mark = '', more = {}) => ({ key: `k${code}`, code, units: [`Precinct ${code}`], parties: [], mark, below: [], allBelow: 0, ...more });
const word = (role, text, lang = '') => ({ role, own: false, texts: [{ lang, pieces: [{ text, mark: '' }] }] });
const contest = (title) => ({ kind: 'contest', mark: '', depth: 0, first: 0, lines: [word('title', title)], unlisted: false, ordered: true,
    selections: [{ mark: '', lines: [word('name', `${title}: Ann`)] }] });
const HEAD = [word('election', 'General')];
// A ballot of two parts: the second one begins at an item.
const PARTS = [{ lines: HEAD, items: [contest('Mayor')], next: { item: 1, line: 0 }, left: 1 },
    { lines: HEAD, items: [contest('Clerk')], next: null, left: 0 }];
const texts = (node, tag) => below(node, tag).map(({ textContent }) => textContent);
const labelled = (node, label) => below(node, 'button').find(({ textContent }) => textContent === label);
const waited = () => new Promise((resolve) => setTimeout(resolve, 5));

/** A list of the ballots of one file or two, as it has begun; what it asks is kept. */
async function listOf(styles, { names = ['a.json'], languages = ['en', 'es'], ballot = () => PARTS[1] } = {}) {
    const asked = [];
    const answers = {
        languages: () => languages, ballot: ({ key, next }) => ballot(key, next),
        styles: ({ words, group, from, count }) => {
            const fitting = styles.filter(({ code }) => code.includes(words));
            const inGroup = fitting.filter(({ mark }) => group === 'all' || (mark === '') === (group === 'same'));
            const differing = fitting.filter(({ mark }) => mark !== '').length;
            return { counts: { all: fitting.length, differing, same: fitting.length - differing },
                entries: group === null ? [] : inGroup.slice(from, from + count) };
        },
    };
    const client = { ask: async (kind, question) => {
        asked.push(kind);
        return answers[kind](question);
    } };
    const list = new BallotList(client, { names, sums: [{ sha256: ONE }, { sha256: OTHER }], version: '9.8', tell() {} });
    const section = list.section();
    equal('the ballots are asked for when they are opened', asked, []);
    below(section, 'details')[0].listeners.toggle();
    await waited();
    return { list, section, asked };
}

const openedStyle = async (section, at) => {
    const details = below(section, 'details').filter(({ attributes }) => attributes.class === 'style')[at];
    details.listeners.toggle();
    await waited();
    return details;
};

// ---- one file

const two = await listOf([style('N', '', { parties: ['Blue'] }), style('S')], { ballot: (_key, next) => PARTS[next === null ? 0 : 1] });
const [heading, note] = [texts(two.section, 'h3')[0], texts(two.section, 'p')[0]];
equal('one file: what is proved', [heading, /^What each ballot has on it.*is proved/.test(note), /Differences are marked/.test(note)],
    ['The ballots', true, false]);
equal('one file: each ballot style', texts(two.section, 'summary').slice(1), ['N Precinct N (Blue)', 'S Precinct S']);
equal('one file: each field has its label', [below(two.section, 'label').map(({ attributes }) => attributes.for),
    [...below(two.section, 'input'), ...below(two.section, 'select')].map(({ attributes }) => attributes.id)],
[['ballot-filter', 'ballot-language'], ['ballot-filter', 'ballot-language']]);
equal('one file: its languages', texts(two.section, 'option'), ['all', 'English (en)', 'Spanish (es)']);
const opened = await openedStyle(two.section, 0);
equal('a ballot: its first part, and what is left', texts(opened, 'p').slice(0, 2).concat(texts(opened, 'li')),
    ['General', 'Mayor', 'Mayor: Ann']);
equal('a ballot: how many lines are left', opened.textContent.includes('Not all of this ballot is shown: the lines of 1 header or contest are left.'), true);
labelled(opened, 'Show more of it').listeners.click();
await waited();
equal('a ballot: the other part', [texts(opened, 'li'), opened.textContent.includes('Not all of this ballot')], [['Mayor: Ann', 'Clerk: Ann'], false]);
const alone = await listOf([style('N')], { languages: ['en'] });
equal('one language: there is none to choose', texts(alone.section, 'option'), []);
await alone.list.fill('nobody');
equal('no ballot has the words', texts(alone.section, 'p').at(-1), 'No ballot style fits.');
await alone.list.fill('N');
equal('one ballot has the words', texts(alone.section, 'summary').slice(1), ['N Precinct N']);
const units = Array.from({ length: 13 }, (_, at) => `P${at}`);
equal('a ballot of many precincts', texts((await listOf([style('M', '', { units })])).section, 'summary')[1], `M ${units.slice(0, 12).join(', ')}, …`);
equal('a ballot of twelve precincts', texts((await listOf([style('M', '', { units: units.slice(1) })])).section, 'summary')[1],
    `M ${units.slice(1).join(', ')}`);
const long = await listOf(Array.from({ length: 51 }, (_, at) => style(`T${at}`)));
equal('many ballots: fifty, and how many more', [texts(long.section, 'summary').length - 1,
    labelled(long.section, 'Show 1 more ballot style of 51') !== undefined], [50, true]);
labelled(long.section, 'Show 1 more ballot style of 51').listeners.click();
await waited();
equal('many ballots: all of them, from the new one on', [texts(long.section, 'summary').length - 1, document.activeElement.textContent],
    [51, 'T50 Precinct T50']);
equal('many ballots: there are no more', texts(long.section, 'button').filter((text) => /more/.test(text)), []);

// ---- two files

const below30 = { below: ['  changed units'], allBelow: 3 };
const pair = await listOf([style('D', 'changed', below30), style('R', 'removed'), style('A', 'added'),
    style('E', '', { units: ['East', 'West'], parties: ['Blue'] })], { names: ['a.json', 'b.json'] });
equal('two files: how many differ', texts(pair.section, 'p').includes('3 of 4 ballot styles differ.'), true);
equal('two files: what is proved', /Differences are marked in place.*is proved, and changed words are not/.test(texts(pair.section, 'p')[0]), true);
equal('two files: each with its mark', texts(pair.section, 'summary').slice(1),
    ['D Precinct Ddiffers', 'R Precinct Rin the first file only', 'A Precinct Ain the second file only', '1 ballot style is the same',
        'E East, West (Blue)the same']);
const differing = await openedStyle(pair.section, 0);
equal('two files: what differs on a ballot, and what is cut', [texts(differing, 'pre'), texts(differing, 'p').slice(0, 2)],
    [['  changed units'], ['What differs on this ballot, as erd ballots tells it. This is proved:', 'and 2 more']]);
equal('two files: a ballot that is the same has no such lines', texts(await openedStyle(pair.section, 3), 'pre'), []);

// ---- print

const printed = [];
globalThis.print = () => printed.push(document.body.children.at(-1));
const sheet = () => printed.at(-1).children.map((one) => one.textContent);
pair.list.speak('es');
await pair.list.printAll(document.createElement('button'));
equal('print: a sheet for each ballot that differs, and one for the others', sheet().map((text) => text.slice(0, 22)),
    ['D sheet 1 of 1For: Pre', 'R sheet 1 of 1For: Pre', 'A sheet 1 of 1For: Pre', 'Ballot styles that are']);
equal('print: what a sheet is of', ['For: Precinct D — differs', 'Language: Spanish (es)', `First file: a.json SHA-256 ${ONE}`,
    `Second file: b.json SHA-256 ${OTHER}`, 'Clerk: Ann', 'Not a ballot to vote with', 'erd 9.8'].filter((words) => !sheet()[0].includes(words)), []);
equal('print: those that are the same are named', ['1 ballot style is the same in both files, and is not printed:', 'E East, West, Blue'].filter((words) => (
    !sheet()[3].includes(words))), []);
equal('print: all of them are named', sheet()[3].includes('more'), false);
equal('print: the sheets alone, until it is over', document.documentElement.dataset.print, 'ballots');
globalThis.afterPrint();
equal('print: then they are gone', [document.documentElement.dataset.print, document.body.children.length], [undefined, 0]);
const whole = await listOf([style('W')], { ballot: (_key, next) => PARTS[next === null ? 0 : 1] });
labelled(await openedStyle(whole.section, 0), 'Print this ballot').listeners.click();
await waited();
equal('print: one ballot, with all its parts', [sheet().length, /Mayor: Ann.*Clerk: Ann/.test(sheet()[0]),
    sheet()[0].includes('Languages: English (en), Spanish (es)')], [1, true, true]);
equal('print: where an item begins and ends', printed.at(-1).querySelectorAll('.contest').map(({ attributes }) => attributes.class),
    ['contest begins', 'contest ends', 'contest begins', 'contest ends']);
equal('print: one file has no mark', [sheet()[0].includes(' — '), sheet()[0].includes(`File: a.json SHA-256 ${ONE}`)], [false, true]);
const endless = await listOf([style('X')], { ballot: () => ({ ...PARTS[0], left: 7 }) });
await endless.list.printAll(document.createElement('button'));
equal('print: a ballot that is too long says so',
    sheet()[0].includes('This ballot is not printed whole: the lines of 7 headers and contests are left out.'), true);
// The printer takes two at a time here.
const five = await listOf(['A', 'B', 'C', 'D', 'E'].map((code) => style(code)));
const taken = [];
five.list.printer.print = async (styles, lang, same) => {
    taken.push([styles.map(({ code }) => code).join(''), lang, same]);
    return Math.min(2, styles.length);
};
const button = labelled(five.section, 'Print these ballots');
const labels = [];
for (let press = 0; press < 4; press++) {
    button.listeners.click();
    await waited();
    labels.push(button.textContent);
}
equal('print: some at a time, from the next one on', labels, ['Print the next ballots (from 3 of 5)', 'Print the next ballots (from 5 of 5)',
    'Print these ballots', 'Print the next ballots (from 3 of 5)']);
equal('print: which these are', taken.map(([codes]) => codes), ['ABCDE', 'CDE', 'E', 'ABCDE']);
const sheets = new Sheets();
const piece = (text) => ({ element: Object.assign(document.createElement('p'), { textContent: text }), keeps: false, item: 0, title: 'T' });
sheets.add([piece('a')], (at, all) => [`${at} of ${all}`], 'foot');
equal('sheets: a head and a foot', sheets.made().children.map(({ textContent }) => textContent), ['1 of 1afoot']);

// ---- sentences

const THINGS = ['Mayor', 'Clerk'].map((subject, at) => ({ kind: 'contest', subject, what: 'removed', count: 2 - at, all: 3, styles: [],
    alike: at === 0 ? ['hidden'] : [] }));
const sentencesOf = async (things) => {
    const client = { ask: async (kind, { words = '', from = 0, count = 0 } = {}) => {
        const fitting = things.filter(({ subject }) => subject.includes(words));
        return kind === 'onBallots' ? { count: things.length } : { count: fitting.length, entries: fitting.slice(from, from + count) };
    } };
    const sentences = new BallotSentences(client, () => {});
    return [sentences, await sentences.section()];
};
const [sentences, shown] = await sentencesOf(THINGS);
equal('sentences: how many, and each', [texts(shown, 'h3'), texts(shown, 'summary')], [['2 things differ on the ballots'],
    ['Mayor, on 2 of 3 ballots: it is missing in the second file', 'Clerk, on 1 of 3 ballots: it is missing in the second file']]);
equal('sentences: why two texts look alike', texts(shown, 'p').filter((text) => /look alike/.test(text)).length, 1);
equal('sentences: how to go from one to another', texts(shown, 'button'), ['Previous', 'Next']);
await sentences.fill('Clerk');
equal('sentences: by words', texts(shown, 'summary').length, 1);
await sentences.fill('nobody');
equal('sentences: none has the words', texts(shown, 'p').at(-1), 'Nothing has these words.');
equal('sentences: one has nothing to go through', texts((await sentencesOf(THINGS.slice(1)))[1], 'button'), []);
equal('sentences: none', (await sentencesOf([]))[1], null);
// One sentence is open at a time.
const [stepped, all] = await sentencesOf([...THINGS, { ...THINGS[0], subject: 'Judge' }]);
const open = () => all.querySelectorAll('.finding').map((one) => (one.open === true ? 'open' : '-')).join(' ');
const steps = [];
for (const by of [1, 1, -1, -1, -1]) {
    await stepped.step(by);
    steps.push(open());
}
equal('sentences: the next one, and the one before', steps, ['open - -', '- open -', 'open - -', '- - -', '- - open']);
// Ballots stand in the rising order of the keys of their styles, part by part, by the bytes in UTF-8. Those without a key come first.
const RISING = [null, null, ['fips', '', '10'], ['fips', '', '2'], ['fips', '', '2a'], ['fips', '', '\uffee'], ['fips', '', '\u{1f5f3}'], ['local-level', '', '1']];
equal('the order of keys', [[...RISING].reverse().sort(orderOfKeys), [...RISING.slice(3), ...RISING.slice(0, 3)].sort(orderOfKeys)], [RISING, RISING]);
counts();
