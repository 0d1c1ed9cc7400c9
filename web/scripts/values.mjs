// The values of the proved list as lines for a reader: one line for each object that a value names, text that it has, or entry of a list.
import { compactText } from '../../bindings/js/lib/exact.mjs';
import { say } from './texts.mjs';

/**
 * A line of a value. Lines are alike if their objects have equal keys, whatever the objects are called.
 * @typedef {{text: string, like: string}} Line
 * What a report calls an object, by its part and its key, and the words of the object; undefined where that is not known.
 * @typedef {(part: string, key: string[] | null) => import('./report_words.mjs').Thing | undefined} Called
 */

// What the name of a reference ends with, before Id or Ids, and the part of the objects that it names.
const REFERENCE = /(GpUnit|District|Scope|Authority|Person|Party|Office|Contest|Candidate|Election)Ids?$/;
const PARTS_BY_ENDING = { GpUnit: 'unit', District: 'unit', Scope: 'unit', Authority: 'person' };

/**
 * The lines of a value, which is that of the member of this name.
 * @param {Called} called
 * @returns {Line[]}
 */
export function linesOf(name, value, called) {
    const [, ending] = REFERENCE.exec(name) ?? [];
    if (ending !== undefined) {
        const part = PARTS_BY_ENDING[ending] ?? ending.toLowerCase();
        return (name.endsWith('s') ? value : [value]).map((key) => nameOf(part, key, called));
    }
    return name === 'ExternalIdentifier' ? value.flatMap(identifierLines) : plainLines(value);
}

// An identifier, and what is carried with it.
function identifierLines({ Type, OtherType, Value, ...others }) {
    const named = textOfTriple([Type, OtherType ?? '', Value]);
    const carried = Object.entries(OtherType === '' ? { OtherType, ...others } : others).filter(([name]) => name !== '@type');
    return [lineOf(named), ...carried.flatMap(([name, value]) => plainLines(value).map((line) => after(`${named}: ${name}: `, line)))];
}

/** The lines of a label, a word, a number, a truth value, or whatever a carried member holds. */
export function plainLines(value) {
    if (typeof value === 'string') {
        return [lineOf(quoted(value))];
    }
    if (Array.isArray(value?.Text) && value['@type'] === 'ElectionResults.InternationalizedText') {
        return value.Text.map(({ Language, Content }) => lineOf(`${Language}: ${quoted(Content)}`));
    }
    if (value === null || typeof value !== 'object' || Object.keys(value).length === 0) {
        return [lineOf(compactText(value))];
    }
    const nameOfEntry = (name) => (Array.isArray(value) ? Number(name) + 1 : name);
    return Object.entries(value).flatMap(([name, inner]) => plainLines(inner).map((line) => after(`${nameOfEntry(name)}: `, line)));
}

/** What an object is called, with its key: Contest “Governor” (local-level C-1). */
export function nameOf(part, key, called) {
    const title = called(part, key)?.title ?? null;
    const kind = say(`part.${part}`);
    const shownKey = key === null ? [] : [say('value.inBrackets', { text: textOfTriple(key) })];
    return lineOf([kind, ...(title === null ? [] : [quoted(title)]), ...shownKey].join(' '), compactText([kind, key]));
}

/** The JSON of a value, a line for each entry. */
export function jsonLines(value) {
    return (Array.isArray(value) ? value : [value]).map((entry) => lineOf(compactText(entry)));
}

/** A key for a reader: its type and its value, and the other type if there is one. */
export function textOfTriple([type, otherType, value]) {
    return [type, otherType, value].filter((part) => part !== '').join(' ');
}

function lineOf(text, like = text) {
    return { text, like };
}

function after(words, line) {
    return { text: words + line.text, like: words + line.like };
}

function quoted(text) {
    return say('value.quoted', { text });
}
