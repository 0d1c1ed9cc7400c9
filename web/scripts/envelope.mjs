// The envelope of a report: the members that are not compared. docs/PROFILE.md, "The envelope".
import { foundPlaces } from './places.mjs';
import { textOf } from '../../bindings/js/lib/scanner.mjs';
import { textOfLabel } from './trail.mjs';

export const ENVELOPE = ['Format', 'GeneratedDate', 'Issuer', 'IssuerAbbreviation', 'VendorApplicationId', 'Notes', 'SequenceStart',
    'SequenceEnd', 'ExternalIdentifier'];

/** The most elections of a report that are named. */
const MOST_ELECTIONS = 20;
const ELECTION_MEMBERS = ['Name', 'StartDate', 'EndDate', 'Type'];

/**
 * The envelope of an accepted report, with a text for each member that is there; its first twenty elections, and whether it is one of a
 * test. One walk finds all of it.
 * @param {Uint8Array} bytes
 * @returns {{envelope: Record<string, string>, isTest: boolean, elections: {name: string, start: string, end: string, type: string}[]}}
 */
export function headIn(bytes) {
    const places = Array.from({ length: MOST_ELECTIONS }, (_, at) => ELECTION_MEMBERS.map((name) => ['Election', at, name])).flat();
    const found = foundPlaces(bytes, [...ENVELOPE.map((name) => [name]), ['IsTest'], ...places]);
    const [test, ...others] = found.splice(ENVELOPE.length);
    const there = ENVELOPE.map((name, index) => [name, found[index]]).filter(([, one]) => one !== null);
    return { envelope: Object.fromEntries(there.map(([name, one]) => [name, valueText(bytes, one.way.at(-1))])), isTest: test?.value ?? false,
        elections: electionsOf(others.map((one) => one?.value)) };
}

function electionsOf(values) {
    const count = ELECTION_MEMBERS.length;
    const elections = Array.from({ length: MOST_ELECTIONS }, (_, at) => values.slice(at * count, (at + 1) * count)).filter(([name]) => name !== undefined);
    return elections.map(([name, start, end, type]) => ({ name: textOfLabel(name) ?? '', start, end, type }));
}

// A text as it is, a whole number as it is written, and of each identifier its type and its value.
function valueText(bytes, { start, end }) {
    const written = textOf(bytes, start, end);
    if (!/^["[]/.test(written)) {
        return written;
    }
    const value = JSON.parse(written);
    return typeof value === 'string' ? value
        : value.map(({ Type, OtherType, Value }) => [Type, OtherType ?? '', Value].filter((part) => part !== '').join(' ')).join('\n');
}
