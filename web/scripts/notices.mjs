// What a reader should know beside the verdict: the envelope, which is not compared, and notes that differ.
import { withoutMark } from './copy_mark.mjs';
import { element, long, saidWith, theirs, wideTable } from './dom.mjs';
import { ENVELOPE } from './envelope.mjs';
import { say } from './texts.mjs';

const LONGEST = 400;
const MOST_PLACES = 10;

/** What is not compared, behind a word to open. The values are put in when they are known. */
export function envelopeDetails() {
    return element('details', { class: 'envelope' }, element('summary', {}, say('envelope.summary')),
        element('p', {}, saidWith('envelope.members', { names: namesOf(ENVELOPE) })));
}

function namesOf(names) {
    const list = document.createDocumentFragment();
    names.forEach((name, index) => list.append(index === 0 ? '' : ', ', element('code', {}, name)));
    return list;
}

/** The envelopes of two files beside each other. */
export function envelopeTable(envelopes, names) {
    const rows = ENVELOPE.filter((name) => envelopes.some((envelope) => Object.hasOwn(envelope, name)))
        .map((name) => rowOf(name, envelopes.map((envelope) => envelope[name] ?? null)));
    return wideTable(say('envelope.caption'), 'sides', names.map((name) => theirs(name)), ...rows);
}

function rowOf(name, values) {
    const same = values[0] === values[1];
    const cells = values.map((value) => element('td', same ? {} : { class: 'differs' },
        value === null ? element('em', {}, say('difference.notThere')) : long(value, LONGEST, '\n')));
    return element('tbody', {}, element('tr', {}, element('th', { scope: 'rowgroup', colspan: '2', class: 'group' }, element('code', {}, name))),
        element('tr', {}, ...cells));
}

/** A notice if the notes of two files differ; null if they don't. */
export function notesNotice(envelopes, names) {
    const notes = envelopes.map((envelope) => withoutMark(envelope.Notes) ?? null);
    if (notes[0] === notes[1]) {
        return null;
    }
    const lines = notes.map((text, index) => element('li', {}, theirs(names[index]), ': ',
        text === null ? element('em', {}, say('difference.notThere')) : long(text, LONGEST, '\n')));
    return notice('notes-differ', say('notice.notes'), element('p', {}, say('notice.notesMore')), element('ul', {}, ...lines));
}

/** Notices on one file: that it is one of a test, names that are written twice, and a preference that none of its identifiers has. */
export function fileNotices({ repeated, types, isTest }, name, index, prefer) {
    return [
        isTest ? notice(`test-${index}`, saidWith('notice.test', { name: theirs(name) })) : null,
        repeated?.length > 0 ? repeatedNotice(repeated, name, index) : null,
        prefer !== null && types !== undefined && !types.includes(prefer) ? notice(`unused-${index}`,
            saidWith('notice.unused', { name: theirs(name), type: theirs(prefer) })) : null,
    ].filter((one) => one !== null);
}

function repeatedNotice(repeated, name, index) {
    const places = repeated.slice(0, MOST_PLACES).map(({ pointer, times }) => element('li', {}, element('code', {}, long(pointer, LONGEST)),
        ` (${say('faults.times', { count: times })})`));
    const more = repeated.length > MOST_PLACES ? element('p', {}, say('notice.repeatedMore', { count: repeated.length - MOST_PLACES })) : null;
    return notice(`repeated-${index}`, saidWith('notice.repeated', { name: theirs(name) }), element('p', {}, say('notice.repeatedNote')),
        element('ul', {}, ...places), more);
}

/** A notice if both files have the same bytes. */
export function sameBytesNotice(sums) {
    return sums.length === 2 && sums[0].sha256 !== undefined && sums[0].sha256 === sums[1].sha256
        ? notice('same-bytes', say('notice.sameBytes')) : null;
}

/** A notice with this heading. */
export function notice(id, heading, ...content) {
    return element('section', { class: 'notice', 'aria-labelledby': id }, element('h3', { id }, heading), ...content);
}
