// What the page shows of a file that was converted from XML: beside the verdict, in the record, and of one that was not.
import { button, described, element, long, save, saidWith, theirs } from '../dom.mjs';
import { notice } from '../notices.mjs';
import { sumShown } from '../sums.mjs';
import { say } from '../texts.mjs';

const MOST_PLACES = 10;
const LONGEST = 400;

/** Whether a file was converted. It may be that it was to be, and was not. */
export function isConverted(converted) {
    return converted?.form !== undefined;
}

/** Why a file was not converted, in a sentence; null if it was, or did not have to be. */
export function whyNotConverted({ converted, trouble }) {
    return converted?.why === undefined || trouble?.why === 'webPage' ? null : say(`xml.why.${converted.why}`, converted.values);
}

/** What stands in the verdict. */
export function convertedSentence(converted, name) {
    return !isConverted(converted) ? null
        : element('p', { class: 'converted' }, saidWith(`xml.${kindOf(converted)}`, { name: theirs(name) }), '. ', say('xml.verdict'));
}

// What the page has read: XML, or JSON that was made from XML.
function kindOf({ isBorn }) {
    return isBorn ? 'born' : 'converted';
}

/**
 * What stands below the verdict: that a file was converted, with the sums of both, and what was not understood. A client that is null can't be
 * asked for the form.
 */
export function convertedNotices(converted, { name, index, client, isRefused }) {
    if (converted?.why !== undefined && isRefused) {
        const why = element('p', {}, whyNotConverted({ converted }));
        return [notice(`not-converted-${index}`, saidWith('xml.notConverted', { name: theirs(name) }), why)];
    }
    return isConverted(converted) ? [formNotice(converted, name, index, client), ...toldNotices(converted, name, index)] : [];
}

function formNotice(converted, name, index, client) {
    const saved = async () => save(new Blob([await client.ask('part', { index, start: 0, end: converted.form.size })]), `${savedName(name, converted)}.json`);
    return notice(`converted-${index}`, saidWith(`xml.${kindOf(converted)}`, { name: theirs(name) }), element('dl', {}, ...sumsOf(converted)),
        converted.allTold === 0 ? element('p', {}, say('xml.whole')) : null,
        client === null ? null : element('p', { class: 'screen' }, say('xml.saveNote')),
        element('p', { class: 'buttons screen' }, client === null ? null : button(say('xml.save'), saved)));
}

function sumsOf({ sha256, form }) {
    return [['record.fileSum', sumShown(sha256, 'file', false)], ['record.convertedSum', sumShown(form.sha256, 'converted', false)]]
        .map((one) => described(...one));
}

function toldNotices({ told, allTold }, name, index) {
    if (allTold === 0) {
        return [];
    }
    const lines = told.slice(0, MOST_PLACES)
        .map((one) => element('li', {}, element('code', {}, long(one.place, LONGEST)), lineOf(one), ': ', toldWords(one)));
    const left = allTold - lines.length;
    const saved = () => save(new Blob(textOfTold(told, allTold)), `${plainName(name)}.not-understood.txt`);
    const heading = saidWith('xml.notUnderstood', { name: theirs(name) }, { count: allTold });
    return [notice(`not-understood-${index}`, heading, element('p', {}, say('xml.notUnderstoodNote')), element('ul', {}, ...lines),
        left === 0 ? null : element('p', {}, say('xml.more', { count: left })),
        element('p', { class: 'buttons screen' }, button(say('xml.saveTold'), saved)))];
}

function lineOf({ line }) {
    return line === null ? '' : ` (${say('xml.line', { line: String(line) })})`;
}

function toldWords({ key, name }) {
    return saidWith(`xml.told.${key}`, { name: theirs(name) });
}

// What was told as lines of a text.
function textOfTold(told, allTold) {
    const lines = told.map((one) => `${one.place}${lineOf(one)}: ${say(`xml.told.${one.key}`, { name: one.name })}\n`);
    return allTold === told.length ? lines : [...lines, `${say('xml.more', { count: allTold - told.length })}\n`];
}

/** What the record has of a file that was converted: a label and a value each. */
export function convertedRecorded(converted) {
    return !isConverted(converted) ? [] : [
        ['record.converted', element('strong', {}, say(`record.${kindOf(converted)}Words`))],
        ['record.convertedSum', sumShown(converted.form.sha256, 'converted', false)],
        ['record.notUnderstood', String(converted.allTold)],
    ];
}

/** What a table of many files has of one: lines. */
export function convertedLines(converted) {
    if (!isConverted(converted)) {
        return converted?.why === undefined ? [] : [whyNotConverted({ converted })];
    }
    return [say(`many.${kindOf(converted)}`), ...(converted.allTold > 0 ? [say('many.notUnderstood', { count: converted.allTold })] : [])];
}

/** The name of a file without its ending. */
export function plainName(name) {
    return name.replace(/\.(json|xml)$/i, '');
}

/** The same for what is saved of a file: it says that the file was converted, since the bytes of no form do. */
export function savedName(name, converted) {
    return `${plainName(name)}${isConverted(converted) ? '.converted' : ''}`;
}
