// Tries what the page shows of one judgement, and where: the parts of a result, by answers that are written out here; and how the page asks its
// worker. One line for each case that fails; at the end stand the counts.
import './elements.mjs';
import { Cancelled, Client, Ended } from '../../web/scripts/client.mjs';
import { needsOf, showNeeds } from '../../web/scripts/needs.mjs';
import { Result } from '../../web/scripts/result.mjs';
import { counts, equal } from './counted.mjs';

const [ONE, OTHER, FORM, PAGE] = ['a', 'b', 'c', 'd'].map((digit) => digit.repeat(64));
const FIXES = { alike: {}, 'not JSON': { meaning: [], fixing: [], origin: [] } };
const accepted = (sum, more) => ({ sha256: sum, canonical: { sha256: FORM, size: 9 }, types: ['fips', 'local-level'], isTest: false, repeated: [], envelope: {},
    elections: [{ name: 'General', start: '2026-11-03', end: '2026-11-03', type: 'general' }], prepared: null, ...more });
const CARD = { overview: { counts: { style: 2 }, precincts: { all: 1, none: 0, several: 0 }, unlisted: { count: 0, names: [] },
    unprinted: { count: 0 } }, languages: ['en'] };
const VOTES = { part: 'contest', key: ['local-level', '', 'K'], how: 'member', member: 'VotesAllowed', titles: ['Mayor', 'Mayor'], classes: ['A', 'A'],
    there: [true, true], lacking: [false, false], rows: [{ left: { text: '1' }, right: { text: '2' }, same: false }], number: 0, word: 'seen' };
const LISTED = { count: 2, listed: 2, first: VOTES, tallies: [], kinds: [{ count: 2 }],
    seen: { ballots: { all: 3, differing: 1 }, leftOut: [], noBallot: [], unseen: 0 } };
const BOTH = { files: [{ outcome: 'accepted', size: 1 }, { outcome: 'accepted', size: 2 }] };
const DIFFERING = {
    verdict: { ...BOTH, comparison: { same: false, first: VOTES } }, begun: { count: 2, entries: [VOTES] }, list: LISTED,
    sums: [accepted(ONE, { envelope: { Notes: 'left' } }), accepted(OTHER, { envelope: { Notes: 'right' } })], onBallots: { count: 1 },
    someOnBallots: ({ count }) => ({ count: 1, entries: count === 0 ? [] : [
        { kind: 'contest', subject: 'Mayor', what: 'added', count: 1, all: 3, styles: [], alike: [] }] }),
    more: ({ from, count }) => [VOTES, { ...VOTES, number: 1 }].slice(from, from + count), betterType: { type: 'ocd-id', fewer: 1, count: 9 },
    ownTypes: [['x'], []], ownView: { types: [['x'], []], count: 0 },
};

/** The result of one file or two by these answers: what each part has, what was asked, and which types were offered. */
async function shown(answers, { isCurrent = () => true, ends } = {}) {
    const [top, holder] = ['div', 'div'].map((tag) => document.createElement(tag));
    const asked = [];
    const offered = [];
    const client = { ask: async (kind, question) => {
        asked.push(kind);
        return typeof answers[kind] === 'function' ? answers[kind](question) : answers[kind];
    } };
    const { length } = answers.verdict.files;
    const result = new Result({ client, data: { fixes: FIXES, version: '9.8', pageSum: PAGE }, top, holder, names: ['a.json', 'b.json'].slice(0, length),
        files: answers.verdict.files.map(() => ({})), prefer: null, isCurrent, tell() {}, offerTypes: (types, isOpen) => offered.push(`${types} ${isOpen}`),
        prefers() {}, takesCopies() {}, again() {} });
    const title = await result.verdict();
    await (ends === undefined ? result.rest() : ends(result));
    const has = (name) => result.parts[name].textContent;
    return { title, result, has, asked, offered, order: [...top.children, ...holder.children].map(({ attributes }) => attributes['data-part']) };
}

const holds = (name, text, ...words) => equal(name, words.filter((one) => !text.includes(one)), []);

// ---- one file

const one = await shown({ verdict: { files: [{ outcome: 'accepted', size: 5 }], comparison: null }, sums: [accepted(ONE, { isTest: true })], ...CARD });
equal('one file: its verdict', one.title, 'Accepted');
equal('one file: the parts in their order', one.order,
    ['verdict', 'notices', 'copies', 'seen', 'sentences', 'offer', 'differences', 'troubles', 'card', 'ballots', 'note', 'record']);
equal('one file: what has nothing', ['copies', 'seen', 'sentences', 'offer', 'differences', 'troubles', 'note'].map(one.has).join(''), '');
holds('one file: the notices', one.has('notices'), 'a.json is marked as a test');
holds('one file: the card', one.has('card'), 'What this file has', 'General', '1 precinct', '2 ballot styles');
holds('one file: the ballots', one.has('ballots'), 'The ballots');
holds('one file: the record', one.has('record'), 'Record of this check', 'Accepted', 'a.json (5 bytes)', 'erd 9.8', 'a.json is marked as a test');
equal('one file: the types, which are not open', one.offered, ['fips,local-level false']);
equal('one file: no list is asked for', one.asked, ['verdict', 'sums', 'overview', 'languages']);

const fromXml = { isBorn: false, sha256: OTHER, form: { sha256: FORM, size: 9 }, allTold: 0, told: [] };
const xml = await shown({ verdict: { files: [{ outcome: 'accepted', size: 5, converted: fromXml }], comparison: null }, sums: [accepted(ONE)], ...CARD });
holds('a file in XML: its verdict', xml.has('verdict'), 'a.json was converted from XML by this page, which no proof covers',
    'The verdict is about the JSON form');
holds('a file in XML: its sums', xml.has('notices').replace(/\s/g, ''), OTHER, FORM);
holds('a file in XML: its record', xml.has('record'), 'converted from XML by this page, which no proof covers');

// ---- two files that are refused: each with its own faults

const REFUSED = { verdict: { files: [{ outcome: 'refused', faults: 1, size: 5, other: 'noReport' },
    { outcome: 'refused', faults: 2, size: 6, other: 'noReport' }],
    comparison: null }, sums: [{ sha256: ONE, types: ['fips'] }, { sha256: OTHER, types: ['local-level'] }], kinds: { kinds: [], told: 0 },
firstLines: ({ index, count }) => [['/A: wrong kind'], ['/B: repeated', '/C: repeated']][index].slice(0, count) };
const refused = await shown(REFUSED);
equal('two refused files: the verdict', refused.title, "These two files can't be compared yet");
equal('two refused files: the faults of each in the record', /1 fault of a\.json\/A: wrong kind2 faults of b\.json\/B: repeated\/C: repeated/
    .test(refused.has('record')), true);
equal('two refused files: the troubles of each', refused.result.parts.troubles.querySelectorAll('h3').map(({ textContent }) => textContent),
    ['1 fault of a.json', '2 faults of b.json']);
equal('two refused files: no ballots, and no card', refused.has('ballots') + refused.has('card'), '');
equal('two refused files: another type may help', refused.offered, ['fips,local-level true']);

// ---- two files that differ

const two = await shown(DIFFERING);
equal('two files: the verdict', two.title, 'These two files do not say the same');
holds('two files: what a voter sees', two.has('seen'), 'The ballots differ: 1 of 3 ballot styles');
holds('two files: the sentences', two.has('sentences'), '1 thing differs on the ballots', 'Mayor, on 1 of 3 ballots: it is missing in the first file');
holds('two files: the differences', two.has('differences'), 'First difference', 'All 2 differences', 'Shown: 2 of 2');
holds('two files: the notices', two.has('notices'), 'The notes of the two files differ', 'a.json: left', 'b.json: right');
holds('two files: the offers', two.has('offer'), 'Matched by the type ocd-id, 1 in place of 9', 'Only a.json has identifiers of the types: x');
holds('two files: the record', two.has('record'), 'Record of this comparison', 'The ballots differ: 1 of 3 ballot styles', 'All 2 differences',
    'The notes of the two files differ');
equal('two files: the first differences before the names of all', two.asked.slice(0, 3), ['verdict', 'begun', 'list']);
equal('two files: the types are open', two.offered, ['fips,local-level true']);
await two.result.showOwnView();
holds('an own view: below the verdict', two.has('verdict'), 'without identifiers of the types x, the two files say the same');
holds('an own view: in the record', two.has('record'), 'without identifiers of the types x, the two files say the same', 'These two files do not say the same');
equal('an own view: it has the focus', document.activeElement, document.getElementById('own-view'));
equal('an own view: it is offered once', two.has('offer').includes('Only a.json'), false);
const same = await shown({ ...DIFFERING, verdict: { ...BOTH, comparison: { same: true } } });
equal('two that say the same: the verdict', same.title, 'These two files define the same ballots');
equal('two that say the same: no list is asked for', same.asked, ['verdict', 'sums']);
equal('two that say the same: no differences, but the ballots', [same.has('differences'), same.has('seen'), same.has('ballots') !== ''], ['', '', true]);
equal('two that say the same: the types are not open', same.offered, ['fips,local-level false']);
const ofOne = await shown({ ...DIFFERING, begun: { count: 1, entries: [VOTES] } }, { ends: (result) => result.showBeginning() });
equal('one difference: no other is told', ofOne.has('differences').includes('difference.count') || ofOne.has('differences').includes('There'), false);
const quiet = await shown({ ...DIFFERING, list: { ...LISTED, seen: { ...LISTED.seen, ballots: { all: 3, differing: 0 } } } });
equal('no ballot differs: no sentences are asked for', [quiet.has('sentences'), quiet.asked.includes('onBallots')], ['', false]);
const PREPARED = { name: 'x.json', original: ONE, converted: false, steps: [{ name: 'nulls', count: 2 }] };
const copied = await shown({ ...DIFFERING, verdict: { ...BOTH, comparison: { same: true } }, sums: [accepted(ONE), accepted(OTHER, { prepared: PREPARED })] });
holds('a copy that was opened again', copied.has('copies'), 'The notes of this file say that it is a copy of x.json', 'Members without a value (2)');
holds('a copy that was opened again: in the record', copied.has('record'), 'Prepared by this page from', 'x.json', 'Members without a value (2)');
const alike = await shown({ ...DIFFERING, sums: [accepted(ONE), accepted(ONE)], verdict: { ...BOTH, comparison: { same: true } } });
holds('one file twice', alike.has('notices'), 'it is one file twice, or a copy');

// ---- where memory or time is over

const unlisted = await shown({ ...DIFFERING, begun: null, list: null });
holds('no memory for the list', unlisted.has('note'), 'There is not enough memory in this browser to list all differences.');
equal('no memory for the list: nothing is said of it', [unlisted.has('seen'), unlisted.has('offer'), unlisted.has('differences').includes('First difference')],
    ['', '', true]);
const unnamed = await shown({ ...DIFFERING, list: { ...LISTED, seen: null } });
holds('no memory for the names', unnamed.has('note'), 'These files are too large for this page to show');
equal('no memory for the names: the list is there', [unnamed.has('seen'), unnamed.has('differences').includes('All 2 differences')], ['', true]);
const uncompared = await shown({ ...DIFFERING, verdict: { ...BOTH, comparison: { noMemory: true } } });
equal('no memory for two files', [uncompared.title, uncompared.has('ballots'), uncompared.asked], ['Out of memory', '', ['verdict', 'sums']]);
const other = await shown(DIFFERING, { isCurrent: () => false, ends: () => {} });
equal('another run has begun', [other.title, other.order, other.result.hasVerdict], ['', [], false]);
const cancelled = await shown(DIFFERING, { ends: (result) => result.stopped(null) });
holds('cancelled behind the verdict', cancelled.has('note'), 'Cancelled. The verdict stands; what would have followed it is not here.', 'Try again');
const failed = await shown(DIFFERING, { ends: (result) => result.stopped(new Error('ODD')) });
holds('failed behind the verdict', failed.has('note'), 'The verdict stands. But something went wrong in what follows it: ODD', 'Try again');
const many = await shown({ ...DIFFERING, begun: { count: 1200, entries: [VOTES] } }, { ends: (result) => result.showBeginning() });
holds('very many differences: the first ones', many.has('differences'), 'First difference', 'All 1,200 differences', 'These are the first of the proved list.');
const some = await shown({ ...DIFFERING, begun: { count: 999, entries: [VOTES] } }, { ends: (result) => result.showBeginning() });
holds('some differences: how many', some.has('differences'), 'First difference', 'There are 999 differences.');

// ---- how much memory is needed

const MB = 1_000_000;
equal('needs: of small files nothing is told', [needsOf([{ size: 11 * MB }]), needsOf([{ size: 7 * MB }, { size: 2 }])], [null, null]);
equal('needs: of one file, and of the larger one of two', [needsOf([{ size: 20 * MB }]), needsOf([{ size: 2 }, { size: 10 * MB }])],
    [{ megabytes: 500, command: 'erd check' }, { megabytes: 400, command: 'erd compare' }]);
const paragraph = document.createElement('p');
showNeeds(paragraph, [{ size: 20 * MB }]);
equal('needs: they are told', [paragraph.hidden, paragraph.textContent],
    [false, 'Files of this size can take 500 MB of memory here. erd check on the command line takes less. Cancel ends this at once.']);
showNeeds(paragraph, [{ size: 2 }]);
equal('needs: they are hidden', paragraph.hidden, true);

// ---- the worker

class Worker {
    static all = [];

    constructor() {
        Object.assign(this, { asked: [], heard: {}, isOver: false });
        Worker.all.push(this);
    }

    postMessage(message) {
        this.asked.push(message);
    }

    addEventListener(name, call) {
        this.heard[name] = call;
    }

    terminate() {
        this.isOver = true;
    }

    answer(kind, more) {
        this.heard.message({ data: { number: this.asked.findLast((one) => one.kind === kind).number, ...more } });
    }
}
const kinds = () => Worker.all.at(-1).asked.map(({ kind }) => kind);
const outcome = (promise) => promise.then((answer) => answer, (error) => error);
const asker = new Client(() => new Worker(), { language: 'en' });
asker.open({ files: [] });
const progress = [];
const first = asker.ask('verdict', { a: 1 }, (told) => progress.push(told));
const second = outcome(asker.ask('sums', {}));
equal('worker: what it is asked, in order', [kinds(), Worker.all[0].asked[0].question, Worker.all[0].asked[2].question],
    [['start', 'open', 'verdict', 'sums'], { language: 'en' }, { a: 1 }]);
Worker.all[0].answer('verdict', { progress: { stage: 'reading' } });
Worker.all[0].answer('sums', { error: 'ODD' });
Worker.all[0].answer('verdict', { answer: 7 });
Worker.all[0].answer('verdict', { answer: 8 });
equal('worker: its answers', [await first, (await second).message, progress], [7, 'ODD', [{ stage: 'reading' }]]);
const left = outcome(asker.ask('list', {}));
asker.cancel();
equal('worker: cancelled, and begun anew with the files', [(await left) instanceof Cancelled, Worker.all[0].isOver, kinds()], [true, true, ['start', 'open']]);
const lost = outcome(asker.ask('list', {}));
Worker.all.at(-1).heard.error({ message: 'no room' });
equal('worker: it ended by itself', [(await lost) instanceof Ended, (await lost).message, Worker.all.length], [true, 'no room', 3]);
const unread = outcome(asker.ask('list', {}));
Worker.all.at(-1).heard.messageerror();
equal('worker: its answer could not be read', [(await unread) instanceof Ended, (await unread).message], [true, 'an answer could not be read']);
asker.restart({ language: 'es' });
equal('worker: begun anew in another language', Worker.all.at(-1).asked[0].question, { language: 'es' });
const waiting = outcome(asker.ask('list', {}));
Worker.all.at(-1).answer('start', { error: 'no wasm' });
equal('worker: it could not begin', [(await waiting).message, (await outcome(asker.ask('list', {}))).message], ['no wasm', 'no wasm']);
asker.renew();
const again = asker.ask('list', {});
Worker.all.at(-1).answer('list', { answer: 9 });
equal('worker: another one may', await again, 9);
const before = Worker.all.length;
asker.renew();
equal('worker: one that has begun is not begun anew', Worker.all.length, before);
const own = asker.another();
own.leave();
equal('worker: another one of its own', [Worker.all.length, Worker.all.at(-1).isOver, Worker.all.at(-2).isOver, kinds()], [before + 1, true, false, ['start']]);
counts();
