// The record of a judgement: what two offices read to each other, and what is printed and filed.
import { button, described, element, long, save, saidWith, theirs } from './dom.mjs';
import { ENVELOPE } from './envelope.mjs';
import { ownSentence } from './difference_list.mjs';
import { convertedRecorded, savedName } from './from_xml/shown.mjs';
import { copyRecorded } from './prepare_copy.mjs';
import { leftOutShown, partShown, seenSentence } from './seen_box.mjs';
import { sumShown } from './sums.mjs';
import { numberText, say } from './texts.mjs';
import { shortened } from './visible.mjs';

const LONGEST_MEMBER = 2000;
const LONGEST_SIGNED = 200;

/**
 * The section of the record.
 * @param {{files: object[], names: string[], prefer: string | null, version: string, pageSum: string, verdict: string,
 *     date: Date, findings: HTMLElement | null, notices: NodeList[], listed: object | null}} known `findings` are the differences or
 *     the faults, and `notices` what stands below the verdict, both for print; `listed` is what is known of all differences
 * @param {import('./client.mjs').Client} client
 */
export function recordOf(known, client) {
    const { files, names } = known;
    const rows = files.map((file, index) => fileRows(file, names[index], index, names.length));
    return element('section', { class: 'record', 'aria-labelledby': 'record' },
        element('h3', { id: 'record' }, say(names.length === 1 ? 'record.ofCheck' : 'record.ofComparison')),
        files.some((file) => file.canonical) ? element('p', { class: 'screen' }, say('record.phone')) : null,
        element('dl', {}, described('record.verdict', element('strong', {}, known.verdict)),
            known.ownView ? described('record.own', ownSentence(known.ownView)) : null,
            known.listed?.seen ? described('record.seen', element('strong', {}, seenSentence(known.listed))) : null, ...rows.flat(),
            described('record.prefer', known.prefer === null ? say('prefer.none') : theirs(known.prefer)),
            described('record.date', dateText(known.date)), described('record.version', `erd ${known.version}`),
            described('record.page', sumShown(known.pageSum, 'page', false))),
        filed(known), buttons(files, names, client));
}

// What only the printed record has.
function filed({ notices, findings, listed, ...known }) {
    return element('div', { class: 'filed' }, ...notices.map((heading) => element('p', {}, element('strong', {}, ...heading))),
        ...(listed?.seen ? [...partShown(listed), ...leftOutShown(listed.seen.leftOut)] : []), findings,
        element('div', { class: 'signing' }, element('p', {}, say('record.proved')), element('p', {}, say('record.notProved')),
            ...signed(known), signatures()));
}

// What is signed: it stands on the page with the signatures, which may be the last of several.
function signed({ files, names, verdict }) {
    return [element('p', {}, element('strong', {}, verdict)), ...files.map(({ sha256 }, index) => element('p', { class: 'signed' },
        saidWith(names.length === 1 ? 'sheet.file' : `sheet.file${index + 1}`, { name: theirs(shortened(names[index], LONGEST_SIGNED)) }),
        sha256 === undefined ? null : ` SHA-256 ${sha256}`))];
}

function fileRows(file, name, index, count) {
    const heading = element('div', { class: 'file' }, element('dt', {}, say(count === 1 ? 'record.file' : `record.file${index + 1}`)),
        element('dd', {}, theirs(name), ` (${say('bytes', { count: file.size })})`));
    return [
        heading,
        ...(file.elections ?? []).map((election) => described('record.election', electionShown(election))),
        file.isTest ? described('record.test', say('record.isTest')) : null,
        count === 1 ? null : described('record.outcome', say(`verdict.${file.outcome}`, { count: file.faults ?? 0 })),
        file.sha256 === undefined ? null : described('record.fileSum', sumShown(file.sha256, 'file', false)),
        ...convertedRecorded(file.conversion).map((one) => described(...one)),
        file.canonical === undefined ? null : described('record.formSum', sumShown(file.canonical.sha256, 'form', true)),
        ...(file.copied === undefined ? [] : copyRecorded(file.copied).map((one) => described(...one))),
        file.envelope === undefined ? null : described('record.envelope', envelopeText(file.envelope)),
    ];
}

function electionShown({ name, start, end }) {
    return element('span', {}, theirs(name), `, ${theirs(start === end ? start : `${start} – ${end}`).textContent}`);
}

// The envelope in one paragraph, with its notes.
function envelopeText(envelope) {
    const parts = ENVELOPE.filter((name) => Object.hasOwn(envelope, name))
        .map((name, at) => element('span', {}, at === 0 ? '' : '; ', `${name}: `, long(envelope[name], LONGEST_MEMBER)));
    return element('span', { class: 'envelope-filed' }, ...parts.length === 0 ? [say('record.none')] : parts);
}

function signatures() {
    return element('div', { class: 'signatures', 'aria-hidden': 'true' }, ...['record.office', 'record.name', 'record.signature']
        .map((key) => element('p', {}, say(key))));
}

function buttons(files, names, client) {
    const forms = files.map((file, index) => (file.canonical === undefined ? null : button(
        files.length === 1 ? say('record.save') : say(`record.save${index + 1}`), async () => {
            const name = `${savedName(names[index], file.conversion)}.canonical.json`;
            save(new Blob([await client.ask('canonical', { index })]), name);
        })));
    return element('p', { class: 'buttons screen' }, button(say('record.print'), () => print(), { class: 'main' }), ...forms);
}

// The date and time of this computer, with its distance to UTC.
function dateText(date) {
    const two = (number) => String(Math.trunc(Math.abs(number))).padStart(2, '0');
    const offset = -date.getTimezoneOffset();
    const day = `${date.getFullYear()}-${two(date.getMonth() + 1)}-${two(date.getDate())}`;
    return `${day} ${two(date.getHours())}:${two(date.getMinutes())} (UTC${offset < 0 ? '−' : '+'}${two(offset / 60)}:${two(offset % 60)})`;
}

/** The size of a file for a reader. */
export function sizeText(bytes) {
    return bytes < 1_000_000 ? say('bytes', { count: bytes }) : say('megabytes', { size: numberText(Math.round(bytes / 100_000) / 10) });
}
