// The page's own view of two files without the identifiers of which only one of them has the type: it leaves them out of copies, and the
// proved code compares the copies. The verdict on the files themselves stays as it is.
import { compactText, readExactly } from '../../bindings/js/lib/exact.mjs';
import { MOST_TYPES, typesIn } from './types.mjs';

const LIST = 'ExternalIdentifier';
/** The most types that are named of a file. */
const MOST_NAMED = 20;

// What may be without an identifier: the election, if it is the only one, and selections.
const NEEDS_NONE = /^ElectionResults\.(Election|\w+Selection)$/;

/**
 * The types of identifier that only one of two reports has, of each side the first; none where a report has too many.
 * @param {Uint8Array[]} forms the canonical forms
 * @returns {string[][]}
 */
export function ownTypes(forms) {
    const [left, right] = forms.map((form) => typesIn(form, typeOf, Infinity));
    return [[left, right], [right, left]].map(([types, others]) => (others.length < MOST_TYPES ? types.filter((type) => !others.includes(type)) : []));
}

/** The types as the page names them: the type, and the other type if there is one. */
export function typesTold(types) {
    return types.map((sides) => sides.slice(0, MOST_NAMED).map((type) => JSON.parse(type).filter((part) => part !== '').join(' ')));
}

/** The bytes of a form without the identifiers of these types. An object that needs an identifier keeps what it has if nothing else is left. */
export function withoutTypes(form, types) {
    return new TextEncoder().encode(compactText(without(readExactly(form), new Set(types))));
}

function without(value, types) {
    if (Array.isArray(value)) {
        return value.map((entry) => without(entry, types));
    }
    if (value === null || typeof value !== 'object') {
        return value;
    }
    const members = Object.entries(value).map(([name, inner]) => [name, name === LIST ? listWithout(value, inner, types) : without(inner, types)]);
    return Object.fromEntries(members.filter(([, inner]) => inner !== undefined));
}

function listWithout(holder, list, types) {
    if (!Array.isArray(list)) {
        return list;
    }
    const left = list.filter((identifier) => !types.has(typeOf(identifier)));
    return left.length > 0 ? left : NEEDS_NONE.test(holder['@type']) ? undefined : list;
}

function typeOf(identifier) {
    return JSON.stringify([identifier?.Type ?? '', identifier?.OtherType ?? '']);
}
