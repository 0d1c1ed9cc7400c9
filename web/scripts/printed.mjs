// Whether ballots print what differs, or may print it, and whether the proved code compares it on the ballots. Both come from its answers: the
// words of an object are all that ballots print of it, or may print. docs/API.md, "Words of ballots".
import { compactText } from '../../bindings/js/lib/exact.mjs';
import { linesIn } from './ballot_findings.mjs';

/**
 * How ballots print what differs: as `words` of an object; `beside` them, which a voter may see as well; or no ballot prints it.
 * @typedef {'words' | 'beside' | 'none'} Print
 */

// What a voter may see beside the words of an object: its selections, of which each has words of its own, and the election that it stands in.
const BESIDE = ['ContestSelection', 'ElectionId'];

// An identifier that carries nothing.
const PLAIN = '{"@type":"ElectionResults.ExternalIdentifier"}';

// The parts whose words the proved code compares on each ballot that names an object of them, by `is_line_reworded` in
// crates/erd_shown/specs/Reworded.antt. It compares the words of units and parties only where they get a ballot, or a line has their name: a
// district, and the party of a person, are told by their keys. Words of offices, elections and the report are not compared at all.
const COMPARED = new Set(['header', 'contest', 'candidate', 'person']);

// The lines on a ballot that tell of a member of its style. What the style or its content carries has none.
const LINES = new Map([['GpUnitIds', ['units']], ['PartyIds', ['parties']], ['OrderedContent', ['header', 'contest']]]);

/**
 * How ballots print what differs in an object. Nothing is known of a ballot style, of the report, and of an object without words: what differs
 * in them stands beside words.
 * @param {import('../../bindings/js/index.d.ts').Difference} difference
 * @param {import('./report_words.mjs').Thing[]} things the object in the files that have words of it
 * @returns {Print}
 */
export function printOf({ how, member, values, selections }, things) {
    if (how !== 'member') {
        return how === 'other class' ? 'beside' : 'words';
    }
    if (things.some(({ words }) => Object.hasOwn(words, member))) {
        return 'words';
    }
    if (things.length === 0 || member !== 'ContestSelection' || selections === undefined) {
        return things.length === 0 || BESIDE.includes(member) || mayBeCarriedInside(member, values) ? 'beside' : 'none';
    }
    const prints = selections.map((one) => printOf(one, selectionsNamed(one, things)));
    return ['beside', 'words', 'none'].find((print) => prints.includes(print)) ?? 'beside';
}

// A selection in each file that has it.
function selectionsNamed({ name }, things) {
    return things.flatMap(({ selections }) => selections.get(compactText(name)) ?? []).map((words) => ({ words }));
}

// Whether what differs may be carried inside identifiers: ballots may print it, as all that is carried. The values of a selection may be too long.
function mayBeCarriedInside(member, values) {
    return member === 'ExternalIdentifier' && (!values || carriedIn(values.left) !== carriedIn(values.right));
}

// One text for what identifiers carry.
function carriedIn(identifiers = []) {
    return identifiers.map(({ Type: _type, OtherType: _other, Value: _value, ...others }) => compactText(others)).filter((text) => text !== PLAIN)
        .sort().join('\n');
}

/**
 * Whether the ballots that differ tell a difference, if a ballot has it.
 * @param {{part: string, key: string[] | null, how: string, member?: string, print: Print}} difference
 * @param {(key: string[]) => string | null} belowOf what the proved code says of the ballots of a style; null where it is not known
 */
export function isOnBallots({ part, key, how, member, print }, belowOf) {
    if (part !== 'style' || how !== 'member') {
        return print === 'words' && (part === 'style' || COMPARED.has(part));
    }
    const kinds = LINES.get(member);
    return kinds !== undefined && linesIn(belowOf(key) ?? '').some(({ kind }) => kinds.includes(kind));
}
