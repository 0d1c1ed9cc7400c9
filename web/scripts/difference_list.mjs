// The list of all differences: how many objects of each kind differ, and each difference.
import { differenceEntry, memberWords } from './comparison.mjs';
import { button, element, saidWith, theirs, wideTable } from './dom.mjs';
import { GrowingList } from './growing.mjs';
import { folded } from './on_request.mjs';
import { numberText, say } from './texts.mjs';

const AT_ONCE = 50;
const MOST_KINDS = 200;

/**
 * The section of all differences.
 * @param {import('./client.mjs').Client} client
 * @param {object} listed what `Differences.told` has made
 * @param {string[]} names
 */
export async function differenceList(client, listed, names) {
    const { count, tallies, seen, kinds } = listed;
    if (count === 1) {
        return element('p', {}, say('difference.noOthers'));
    }
    const counted = new Counted(listed);
    const isLong = listed.listed > AT_ONCE && kinds.length > 1 && kinds.length <= MOST_KINDS;
    const entries = isLong ? kinds.map((kind, at) => kindShown(client, kind, at, names, counted)) : await growing(client, {}, listed.listed, names, counted);
    return element('section', { 'aria-labelledby': 'all-differences', class: 'others' },
        element('h3', { id: 'all-differences' }, say('difference.all', { count })),
        element('p', { class: 'note' }, say(listed.listed < count ? 'difference.provedPart' : 'difference.proved')),
        seen === null ? null : element('p', { class: 'note' }, say('difference.notProved')),
        talliesShown(tallies, names), counted.holder, ...entries);
}

/** The beginning of the list while the names of objects are looked up. */
export function listBegun(entries, count, names) {
    return element('section', { 'aria-labelledby': 'all-differences' }, element('h3', { id: 'all-differences' }, say('difference.all', { count })),
        element('p', { class: 'note' }, say('difference.begun')),
        element('ol', { class: 'differences' }, ...entries.map((entry) => differenceEntry(entry, names))));
}

// Counts the differences that are shown, each by its number in the proved list, and holds the count against that list.
class Counted {
    constructor({ count, listed, kinds }) {
        Object.assign(this, { count, listed });
        this.numbers = new Set();
        this.holder = element('div', {});
        this.isRight = listed <= count && kinds.reduce((sum, kind) => sum + kind.count, 0) === listed;
        this.tell();
    }

    // Entries of a list that has so many of them now, and `all` in the end.
    add(entries, list, all) {
        entries.forEach(({ number }) => this.numbers.add(number));
        list.numbers = new Set([...list.numbers ?? [], ...entries.map(({ number }) => number)]);
        list.seen = (list.seen ?? 0) + entries.length;
        this.isRight &&= list.numbers.size === list.seen && list.seen <= all;
        this.tell();
    }

    tell() {
        const shown = this.numbers.size;
        this.holder.replaceChildren(...[
            element('p', { class: 'shown-count' }, say('difference.shown', { shown, all: this.count })),
            this.listed < this.count ? element('p', { class: 'note' }, say('difference.partListed', { listed: this.listed, all: this.count })) : null,
            this.isRight ? null : element('p', { class: 'message trouble', role: 'alert' }, say('difference.miscounted', { shown, all: this.count })),
        ].filter((one) => one !== null));
    }
}

// Of a long list the differences of one kind, and how many these are. They are made when they are opened.
function kindShown(client, { part, how, member, count }, at, names, counted) {
    const nodes = { member: memberWords(member ?? ''), left: theirs(names[0]), right: theirs(names[1]) };
    const summary = [saidWith(`kind.${how}`, nodes, { parts: say(`parts.${part}`) }), ' ', element('span', { class: 'badge' }, numberText(count))];
    return folded({ class: 'kind' }, summary, () => growing(client, { kind: at }, count, names, counted));
}

async function growing(client, which, count, names, counted) {
    const own = {};
    const list = new GrowingList(element('ol', { class: 'differences' }), {
        count,
        atOnce: AT_ONCE,
        entries: async (from, some) => {
            const entries = await client.ask('more', { ...which, from, count: some });
            counted.add(entries, own, count);
            return entries.map((entry) => differenceEntry(entry, names));
        },
        label: (some) => say('difference.more', { count: some, all: count }),
        focus: 'summary',
    });
    return list.begun();
}

// How many objects of each kind differ.
function talliesShown(tallies, names) {
    const heads = [say('tally.kind'), say('tally.differ'), say('tally.members'), ...names.map((name) => saidWith('tally.only', { name: theirs(name) }))];
    const rows = tallies.map(({ part, differ, members, 'only left': left, 'only right': right }) => element('tr', {},
        element('th', { scope: 'row' }, say(`parts.${part}`)),
        ...[differ, members, left, right].map((count) => element('td', {}, count === 0 ? '' : numberText(count)))));
    return wideTable(say('tally.caption'), 'tallies', heads, element('tbody', {}, ...rows));
}

/**
 * The offer of a view without the identifiers that only one file has; null if there are none.
 * @param {string[][]} types the types that only one file has, of each file
 * @param {string[]} names
 * @param {() => void} choose
 */
export function ownOffer(types, names, choose) {
    const lines = types.map((some, index) => (some.length === 0 ? null : element('li', {}, saidWith('own.types', {
        name: theirs(names[index]), types: theirs(some.join(', ')) })))).filter((line) => line !== null);
    return lines.length === 0 ? null : element('section', { class: 'offer own-offer', 'aria-labelledby': 'own-offer' },
        element('h3', { id: 'own-offer' }, say('own.heading')), element('ul', {}, ...lines), button(say('own.choose'), choose, { id: 'own-choose' }));
}

/** What the own view says, in a sentence. */
export function ownSentence({ types, count }) {
    const key = count === null ? 'own.refused' : count === 0 ? 'own.same' : 'own.different';
    return saidWith(key, { types: theirs([...new Set(types.flat())].join(', ')) }, { count: count ?? 0 });
}

/**
 * The offer of a type of identifier under which fewer objects stay unmatched.
 * @param {{type: string, fewer: number, count: number}} better
 * @param {(type: string) => void} choose
 */
export function typeOffer({ type, fewer, count }, choose) {
    return element('section', { class: 'offer', 'aria-labelledby': 'offer' }, element('h3', { id: 'offer' }, say('offer.heading')),
        element('p', {}, saidWith('offer.fewer', { type: theirs(type) }, { fewer, count })),
        button(saidWith('offer.choose', { type: theirs(type) }), () => choose(type)));
}
