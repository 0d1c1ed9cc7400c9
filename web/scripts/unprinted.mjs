// What the ballots of a file leave out, by two answers of the proved code: the canonical form (docs/PROFILE.md, "The canonical report") and the
// words of objects (docs/API.md, "Words of ballots"), which are all that ballots print of them, or may print.
import { textOfKey } from '../../bindings/js/lib/order.mjs';

// The lists of objects that have words, in a report and in an election.
const LISTS = { GpUnit: 'unit', Party: 'party', Person: 'person', Office: 'office', Header: 'header', Election: 'election' };
const LISTS_OF_ELECTION = { Candidate: 'candidate', Contest: 'contest' };
// What says nothing by itself: the class of an object, its number, and lists of objects, which have words of their own.
const WORDLESS = new Set(['@type', '@id', ...Object.keys(LISTS_OF_ELECTION), 'BallotStyle', 'ContestSelection']);

/**
 * What the ballots of an accepted report leave out.
 * @param {object} report the canonical form
 * @param {import('./report_words.mjs').ReportWords} words
 * @returns {{elections: Map<string, number>, contests: import('./report_words.mjs').Thing[], members: object[]}} the number of the election of
 *     each style by the texts of its identifiers, the contests that no ballot has, and the members that no ballot prints, with how many objects
 *     have them
 */
export function unprintedIn(report, words) {
    const contests = [...words.of('contest').values()];
    return { elections: electionsOfStyles(report), contests: unlistedIn(report, contests), members: membersWithoutWords(report, words.entries) };
}

function electionsOfStyles({ Election }) {
    const identifiers = Election.flatMap(({ BallotStyle = [] }, at) => BallotStyle.flatMap((style) => style.ExternalIdentifier.map((one) => [one, at])));
    return new Map(identifiers.map(([{ Type, OtherType = '', Value }, at]) => [textOfKey([Type, OtherType, Value]), at]));
}

// The form names each contest by its number among all of them, in the order of their keys.
function unlistedIn({ Election }, contests) {
    const listed = new Set(Election.flatMap(({ BallotStyle = [] }) => BallotStyle.flatMap(contestsOn)));
    return contests.filter((_, at) => !listed.has(`co${at + 1}`));
}

function contestsOn({ ContestId, OrderedContent = [] }) {
    return [ContestId, ...OrderedContent.flatMap(contestsOn)];
}

// Which members more objects have than have them among their words.
function membersWithoutWords(report, entries) {
    const counts = countsOf(objectsOf(report));
    const printed = countsOf(entries.map(({ part, words }) => [part, words]));
    const kinds = [...counts].map(([name, count]) => [JSON.parse(name), count - (printed.get(name) ?? 0)]);
    return kinds.filter(([, count]) => count > 0).map(([[part, member], count]) => ({ part, how: 'member', member, count }))
        .sort((one, other) => other.count - one.count);
}

// How many objects of each part have each member. That a flag is off is no more than that it is not there.
function countsOf(objects) {
    const counts = new Map();
    for (const [part, object] of objects) {
        for (const member of Object.keys(object).filter((name) => object[name] !== false && !WORDLESS.has(name))) {
            const name = JSON.stringify([part, member]);
            counts.set(name, (counts.get(name) ?? 0) + 1);
        }
    }
    return counts;
}

// The objects of a report that have words, each with its part.
function objectsOf(report) {
    const objectsIn = (lists, holder) => Object.entries(lists).flatMap(([name, part]) => (holder[name] ?? []).map((object) => [part, object]));
    return [...objectsIn(LISTS, report), ...report.Election.flatMap((election) => objectsIn(LISTS_OF_ELECTION, election))];
}
