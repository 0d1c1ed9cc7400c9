// The faults of a file by their kinds: the reasons, in the order in which they first occur, each with its places.

const MOST_NAMES = 5;

// The members that a fault of these reasons is about, where the last step of its place names them.
const NAMED_BY_PLACE = new Set([5, 6, 7]);

/**
 * The kinds of some faults.
 * @param {{place: (string | number)[], reason: number, name?: string}[]} faults
 * @returns {{reason: number, faults: object[], names: [string, number][]}[]} `names` are those that occur most, with their counts
 */
export function kindsOf(faults) {
    const kinds = new Map();
    for (const fault of faults) {
        if (!kinds.has(fault.reason)) {
            kinds.set(fault.reason, { reason: fault.reason, faults: [], counts: new Map() });
        }
        const kind = kinds.get(fault.reason);
        kind.faults.push(fault);
        const name = nameIn(fault);
        if (name !== null) {
            kind.counts.set(name, (kind.counts.get(name) ?? 0) + 1);
        }
    }
    return [...kinds.values()].map(({ reason, faults: some, counts }) => ({
        reason, faults: some, names: [...counts].sort(([, one], [, other]) => other - one).slice(0, MOST_NAMES),
    }));
}

function nameIn({ place, reason, name }) {
    const last = place.at(-1);
    return name ?? (NAMED_BY_PLACE.has(reason) && typeof last === 'string' ? last : null);
}
