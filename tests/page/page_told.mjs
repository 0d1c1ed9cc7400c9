// Tries the page as a whole without a browser: it begins, takes files, asks a worker that answers what the test says, and tells what came. One
// line for each case that fails; at the end stand the counts.
import { createHash } from 'node:crypto';
import { readFileSync } from 'node:fs';
import { gzipSync } from 'node:zlib';
import { below, byId } from './elements.mjs';
import { attempted } from '../../web/scripts/attempts.mjs';
import { documentButton } from '../../web/scripts/documents.mjs';
import { counts, equal, ROOT, TEXTS } from './counted.mjs';

const DIGITS = '0123456789ABCDEFGHIJKLMNOPQRSTUVWXYZabcdefghijklmnopqrstuvwxyz!#$%,()*+-;.=:?@^_/{|}~';
const SPANISH = JSON.parse(readFileSync(new URL('web/texts.es.json', ROOT)));
const sumOf = (text) => createHash('sha256').update(text).digest('hex');
const [ONE, OTHER] = ['a', 'b'].map((digit) => digit.repeat(64));

// ---- what the build puts in

/** Bytes in base 85, as the build writes them. */
function packed(value) {
    const bytes = gzipSync(typeof value === 'string' ? value : JSON.stringify(value));
    let text = '';
    for (let at = 0; at < bytes.length; at += 4) {
        let number = [0, 1, 2, 3].reduce((sum, next) => sum * 256 + (bytes[at + next] ?? 0), 0);
        let digits = '';
        for (let next = 0; next < 5; next++) {
            digits = DIGITS[number % 85] + digits;
            number = Math.floor(number / 85);
        }
        text += digits.slice(0, Math.min(4, bytes.length - at) + 1);
    }
    return text;
}

const FIX = { meaning: [], fixing: [], origin: [] };
const fixes = { alike: {}, 'not JSON': FIX };
const template = '{{text:title}}|{{policy}}|{{style}}|{{tables}}|{{wasm}}|{{examples}}|{{licences}}|{{documents}}|{{worker}}|{{script}}|'
    + '{{version}}|{{language}}';
const PARTS = {
    tables: packed({ texts: { en: { ...TEXTS, title: 'A & <b>' }, es: SPANISH }, fixes: { en: fixes, es: fixes }, version: '9.8', language: 'en',
        template }),
    wasm: packed('WASM'), worker: packed('OWN'), 'examples-data': packed({ 'county.vendor-a.json': '{"a":1}', 'county.vendor-b.json': '{"b":1}' }),
    'licences-data': packed('THE LICENCES'), 'documents-data': packed({ profile: 'THE PROFILE', letter: 'DEAR VENDOR' }),
    script: 'SHARED\n// the worker has what stands above\nREST',
};
Object.entries(PARTS).forEach(([id, text]) => (byId(id).textContent = text));
byId('announcement').dataset.failed = 'IT FAILED';
const heading = Object.assign(document.createElement('h2'), { dataset: { text: 'files.heading' } });
const dropping = [];
Object.assign(document, { documentElement: { dataset: {}, lang: '' }, body: { classList: { toggle: (name, is) => dropping.push(`${name} ${is}`) } },
    querySelectorAll: (selector) => ({ '[data-text]': [heading] }[selector]),
    querySelector: (selector) => ({ style: { textContent: 'STYLE' }, 'meta[http-equiv]': { content: 'POLICY' } }[selector]) });
globalThis.navigator = { languages: ['fr', 'es-MX', 'en'], hardwareConcurrency: 1 };
const heard = {};
globalThis.addEventListener = (name, call) => {
    heard[name] = call;
};
byId('licences').append(document.createElement('pre'));

// ---- the worker

const accepted = (sum) => ({ sha256: sum, canonical: { sha256: 'c'.repeat(64), size: 9 }, types: ['fips', 'ocd-id'], isTest: false, repeated: [],
    envelope: {}, elections: [], prepared: null });
const opened = [];
const started = [];
const asked = [];
const ANSWERS = {
    start: (question) => void started.push(question.language), open: (question) => void opened.push(question),
    verdict: () => ({ files: opened.at(-1).files.map(({ size }) => ({ outcome: 'accepted', size })),
        comparison: opened.at(-1).files.length === 1 ? null : { same: true } }),
    sums: () => opened.at(-1).files.map((_, at) => accepted([ONE, OTHER][at])),
    overview: () => ({ counts: {}, precincts: { all: 0, none: 0, several: 0 }, unlisted: { count: 0, names: [] }, unprinted: { count: 0 } }),
    languages: () => [], survey: () => ({ outcome: 'notJson', repeated: 0, isTest: false, notes: null, converted: null }),
};
let answers = { ...ANSWERS };
let workers = 0;
globalThis.Worker = class {
    constructor() {
        workers++;
        Object.assign(this, { heard: {}, isOver: false });
    }

    addEventListener(name, call) {
        this.heard[name] = call;
    }

    postMessage({ number, kind, question }) {
        asked.push(kind);
        const made = answers[kind]?.(question);
        queueMicrotask(() => !this.isOver && made !== 'NEVER' && this.heard.message({ data: made instanceof Error ? { number, error: made.message }
            : { number, answer: made } }));
    }

    terminate() {
        this.isOver = true;
    }
};

// ---- what a user does

const wait = (milliseconds = 30) => new Promise((resolve) => setTimeout(resolve, milliseconds));
const until = async (isSo) => {
    for (let tries = 0; tries < 200 && !isSo(); tries++) {
        await wait(10);
    }
};
const { dataset } = document.documentElement;
const quiet = () => until(() => dataset.busy === 'no');
const choose = async (id, ...names) => {
    byId(id).listeners.change({ target: { files: names.map((name) => new File(['{}'], name)) } });
    await wait();
    await quiet();
};
const verdict = () => byId('result-top').children.map(({ textContent }) => textContent).join('');
const told = () => byId('announcement').textContent;

await import('../../web/scripts/page.mjs');
await until(() => dataset.ready === 'yes');
equal('page: it is ready, in the first language that the user reads', [dataset.ready, document.documentElement.lang, started], ['yes', 'es', ['es']]);
equal('page: its own words', heading.textContent, 'Archivos');
equal('page: its languages', [byId('language').textContent, byId('language').value], ['EnglishEspañol', 'es']);
equal('page: the examples', byId('examples').textContent, ['same', 'different', 'faulty'].map((name) => SPANISH[`example.${name}`]).join(''));
await choose('input-0', 'a.json');
equal('page: one file: it is told', [told(), verdict().includes('Se aceptó a.json')], ['Aceptado', true]);
equal('page: one file: what is shown', [dataset.shown, dataset.busy, byId('files-chosen').textContent.trim(), byId('choose-second').hidden,
    byId('files-open').hidden], ['result', 'no', 'a.json', false, true]);
equal('page: one file: what the worker got', opened.at(-1), { files: [{}], converted: [null], prefer: null });
byId('language').value = 'en';
byId('language').listeners.change();
await wait();
await quiet();
equal('page: in another language it is judged anew', [told(), started.at(-1), document.documentElement.lang, verdict().includes('a.json is accepted')],
    ['Accepted', 'en', 'en', true]);
await choose('input-1', 'b.json');
equal('page: two files', [told(), byId('files-chosen').textContent.trim(), byId('choose-second').hidden, opened.at(-1).files.length],
    ['These two files define the same ballots', 'a.json, b.json', true, 2]);
equal('page: no type is preferred at first', byId('prefer').value, '');
const record = byId('result-rest').textContent;
const own = ['A &amp; &lt;b&gt;', 'POLICY', 'STYLE', ...['tables', 'wasm', 'examples-data', 'licences-data', 'documents-data', 'worker', 'script']
    .map((id) => PARTS[id]), '9.8', 'en'].join('|');
equal('page: its own sum is in the record', record.replace(/\s/g, '').includes(sumOf(own)), true);
equal('page: the types of identifier', [byId('prefer-choice').hidden, byId('prefer-choice').open,
    byId('prefer').children.map(({ textContent }) => textContent)], [false, false, ['none', 'fips', 'ocd-id']]);
Object.assign(byId('prefer'), { value: 'ocd-id', selectedIndex: 2 });
byId('prefer').listeners.change({ target: byId('prefer') });
await wait();
await quiet();
equal('page: a type that is preferred', [opened.at(-1).prefer, byId('result-rest').textContent.includes('Preferred type of identifierocd-id')],
    ['ocd-id', true]);
Object.assign(byId('prefer'), { value: '', selectedIndex: 0 });
byId('prefer').listeners.change({ target: byId('prefer') });
await wait();
await quiet();
equal('page: no type is preferred', opened.at(-1).prefer, null);
byId('remove-0').listeners.click();
await wait();
await quiet();
equal('page: without the first file', [told(), byId('name-0').textContent, byId('name-1').textContent], ['Accepted', 'b.json (2 bytes)', 'No file is chosen.']);

// ---- files that are dropped

const event = (files, slot) => ({ preventDefault() {}, relatedTarget: null,
    dataTransfer: { files, items: files.map((file) => ({ kind: 'file', getAsFile: () => file })) },
    target: { closest: () => (slot === undefined ? null : { dataset: { slot } }) } });
heard.dragover(event([]));
heard.dragleave({ relatedTarget: {} });
heard.dragleave({ relatedTarget: null });
equal('page: it says where to drop', dropping, ['dropping true', 'dropping true', 'dropping false']);
for (const [files, slot, wanted] of [[['k.json'], undefined, 'b.json, k.json'], [['l.json'], '0', 'l.json, k.json'],
    [['m.json', 'n.json'], undefined, 'm.json, n.json']]) {
    heard.drop(event(files.map((name) => new File(['{}'], name)), slot));
    await wait();
    await quiet();
    equal(`page: dropped: ${files}`, [byId('files-chosen').textContent.trim(), dropping.at(-1)], [wanted, 'dropping false']);
}
equal('page: what is no longer chosen', [byId('files-message').textContent, byId('files-message').hidden],
    ['What was chosen before is no longer chosen: l.json, k.json', false]);
byId('input-1').value = 'kept';
await choose('input-0', 'o.json');
equal('page: the same file may be chosen again', byId('input-1').value, '');
equal('page: nothing is said of files any more', byId('files-message').hidden, true);
byId('remove-1').listeners.click();
await wait();
await quiet();
equal('page: without the second file', byId('files-chosen').textContent.trim(), 'o.json');
const clicks = [];
byId('input-1').click = () => clicks.push('second');
byId('choose-second').listeners.click();
equal('page: a button that chooses the second file', clicks, ['second']);
byId('remove-0').listeners.click();
await wait();
await quiet();
equal('page: without any file', [dataset.shown, dataset.busy, verdict(), byId('files-open').hidden], [undefined, 'no', '', false]);

// ---- what takes long, and what fails

answers.verdict = () => 'NEVER';
byId('input-0').listeners.change({ target: { files: [new File(['{}'], 'c.json')] } });
await wait();
equal('page: while it is judged', [dataset.busy, byId('progress').hidden, told()], ['yes', false, 'Working']);
const before = workers;
byId('input-0').listeners.change({ target: { files: [new File(['{}'], 'p.json')] } });
await wait();
equal('page: another file ends what is judged', [workers - before, byId('files-chosen').textContent.trim()], [1, 'p.json']);
byId('cancel').listeners.click();
await quiet();
equal('page: cancelled', [verdict(), told(), byId('progress').hidden, byId('files-open').hidden], ['!CancelledNo file was judged.', 'Cancelled', true, false]);
answers.verdict = () => new Error('ODD');
await choose('input-0', 'd.json');
equal('page: it failed', [verdict().includes('No verdict was reached.'), verdict().includes('ODD'), told()], [true, true, 'Something went wrong in this page']);
answers = { ...ANSWERS, sums: () => new Error('ODD') };
await choose('input-0', 'e.json');
equal('page: it failed behind the verdict', [verdict().includes('e.json is accepted'),
    byId('result-rest').textContent.includes('The verdict stands. But something went wrong')], [true, true]);
answers = { ...ANSWERS };
heard.unhandledrejection({ reason: new Error('ELSE') });
equal('page: what nobody else has taken', byId('trouble').textContent.trim(), 'Something went wrong in this page: ELSE');

// ---- many files, and what stands at the foot

await choose('input-many', 'f.json', 'g.json', 'h.json');
equal('page: many files: it has ended', [dataset.busy, byId('progress').hidden], ['no', true]);
equal('page: many files', [dataset.shown, byId('many-files').textContent.includes('3 files'), byId('files-chosen').textContent.trim(), verdict()],
    ['many', true, '3 files', '']);
byId('choose-others').listeners.click();
equal('page: other files may be chosen', [byId('files-open').hidden, byId('files-folded').hidden], [false, true]);
await choose('input-0', 'i.json');
equal('page: one file in place of many', [byId('many-files').textContent, dataset.shown], ['', 'result']);
answers.survey = () => new Error('ODD');
await choose('input-many', 'f.json', 'g.json', 'h.json');
equal('page: many files that fail', [verdict().includes('ODD'), told()], [true, 'Something went wrong in this page']);
answers = { ...ANSWERS };
await byId('licences').listeners.toggle();
await byId('letter').listeners.toggle();
equal('page: the licences, and the letter', [byId('licences').textContent.includes('THE LICENCES'), byId('letter').textContent.includes('DEAR VENDOR')],
    [true, true]);
const button = documentButton('letter');
const summary = document.createElement('summary');
byId('letter').append(summary);
button.listeners.click();
equal('page: a button that opens the letter', [button.textContent, byId('letter').open, document.activeElement === summary],
    ['Open the letter to the vendor', true, true]);
const holder = document.createElement('p');
const tries = [];
await attempted(holder, async () => {
    tries.push('tried');
    if (tries.length === 1) {
        throw new Error('ODD');
    }
});
const shownOnce = holder.textContent;
below(holder, 'button')[0].listeners.click();
await wait();
equal('page: what failed may be tried again', [shownOnce, tries.length, holder.textContent], ['Something went wrong in this page: ODD Try again', 2, '']);
byId('examples').children[2].children[0].listeners.click();
await wait();
await quiet();
equal('page: an example', [byId('files-chosen').textContent.trim(), told()], ['county.vendor-a.faulty.json', 'Accepted']);
counts();
