// Files of JSON that are no ElectionReport: which other file one is, as far as its first level tells.
import { foundPlaces } from './places.mjs';

// The reasons of a report that lacks its class, or has another one.
const CLASS_REASONS = new Set([2, 3]);
const CLASS = '@type';
// How the classes of other standards begin: SP 1500-103, and SP 1500-20.
const BEGINNINGS = [['CVR.', 'castVotes'], ['BallotDefinition.', 'ballotDefinition']];
// A report without its class has one of these.
const MEMBERS = ['Election', 'GpUnit'];

/**
 * Which other file a refused one is: `castVotes`, `ballotDefinition` or `noReport`; undefined if it is a report, or may be one.
 * @param {Uint8Array} bytes
 * @param {{place: (string | number)[], reason: number, name?: string}[]} faults
 */
export function otherFile(bytes, faults) {
    if (!faults.some(({ place, reason, name }) => CLASS_REASONS.has(reason) && [...place, ...(name === undefined ? [] : [name])].join() === CLASS)) {
        return undefined;
    }
    const [type, ...members] = foundPlaces(bytes, [[CLASS], ...MEMBERS.map((name) => [name])]);
    const name = type?.value;
    const known = typeof name === 'string' ? BEGINNINGS.find(([beginning]) => name.startsWith(beginning)) : undefined;
    return known?.[1] ?? (members.every((member) => member === null) ? 'noReport' : undefined);
}
