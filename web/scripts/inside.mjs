// What differs inside the selections of two contests, or on the ballots of two styles, with a name of each thing for a reader. What differs
// comes from the proved code, and so do the values of selections.
import { compactText, exactValue } from '../../bindings/js/lib/exact.mjs';
import { linesIn, VOTERS } from './ballot_findings.mjs';
import { rowsOfMember } from './rows.mjs';
import { say } from './texts.mjs';
import { nameOf, plainLines, textOfTriple } from './values.mjs';

/** The most of these differences that the page shows of one contest or one ballot. */
const MOST_INSIDE = 100;

/** The most rows that the page shows of one member of a selection, and the characters of JSON from which on it shows no more values of the
 * selections of one contest. */
const MOST_ROWS = 20;
const ENOUGH_CHARACTERS = 50_000;

/**
 * What the page shows of what differs inside: how many differences there are, and the first of them. Null if the proved list does not
 * tell them, since it is too long, and undefined for a difference in anything else.
 * @param {import('../../bindings/js/index.d.ts').Difference} difference
 * @param {import('./values.mjs').Called[]} called
 * @param {(key: string[]) => string | null} belowOf the lines that say what differs on the ballot of a style; null where they are not known
 */
export function insideOf({ part, key, how, member, selections }, called, belowOf) {
    if (how === 'member' && part === 'contest' && member === 'ContestSelection') {
        return selections === undefined ? null : toldOf('contest', selections, entriesOfSelections(called));
    }
    const below = how === 'member' && part === 'style' && member === 'OrderedContent' ? belowOf(key) : null;
    return below === null ? undefined
        : toldOf('style', linesIn(below).flatMap((line) => [line, ...line.inside]), (line) => entryOfLine(line, called));
}

function toldOf(part, all, entryOf) {
    return { part, count: all.length, entries: all.slice(0, MOST_INSIDE).map(entryOf) };
}

// Makes the entries of the selections of one contest, with the values of members that are not too long.
function entriesOfSelections(called) {
    let characters = 0;
    return ({ how, member, name, values }) => {
        const entry = { how, member, name: selectionText(name, how === 'only right' ? [...called].reverse() : called) };
        if (how !== 'member' || values === undefined) {
            return entry;
        }
        if (values === null || characters >= ENOUGH_CHARACTERS) {
            return { ...entry, isTooLong: true };
        }
        characters += compactText(values).length;
        return { ...entry, ...rowsOfMember(member, values, called, MOST_ROWS) };
    };
}

// A line of the proved code on a ballot: how something differs, what it is, and its key or its name as JSON.
function entryOfLine({ how, kind, key }, called) {
    if (VOTERS.has(kind)) {
        return { how, name: say(`parts.${VOTERS.get(kind)}`) };
    }
    const named = exactValue(key);
    return { how, name: kind === 'selection' ? say('value.selection', { name: selectionText(named, called) }) : textOfObject(kind, named, called) };
}

// A selection by its candidates or parties, its label, or that it is for a write-in. What else tells it from others is in brackets.
function selectionText([type, keys, isWriteIn, order, label, identifier], called) {
    const part = type === 'ElectionResults.PartySelection' ? 'party' : 'candidate';
    const texts = [
        ...keys.map((key) => textOfObject(part, key, called)),
        ...(label === null ? [] : plainLines(JSON.parse(label)).map(({ text }) => text)),
        ...(isWriteIn ? [say('value.writeIn')] : []),
    ];
    const further = [...(order === null ? [] : [say('inside.order', { order: String(order) })]), ...(identifier === null ? [] : [textOfTriple(identifier)])];
    const named = texts.length > 0 ? texts.join(' + ') : say('value.noName');
    return further.length === 0 ? named : `${named} ${say('value.inBrackets', { text: further.join(', ') })}`;
}

// An object as the first of the reports calls it that has it.
function textOfObject(part, key, called) {
    const ofReport = called.find((one) => one(part, key) !== undefined);
    return ofReport === undefined ? textOfTriple(key) : nameOf(part, key, ofReport).text;
}
