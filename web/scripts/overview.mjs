// What a file has: how many objects of each kind, and which ballot styles each precinct has. The objects and the ballot styles come from the
// proved code; what ballots leave out is read of its canonical form and its words.
import { textOfKey } from '../../bindings/js/lib/order.mjs';
import { orderForReader } from './texts.mjs';
import { textOfTriple } from './values.mjs';

const PARTS = ['contest', 'candidate', 'party', 'office', 'person', 'header', 'unit'];
const PRECINCTS = new Set(['precinct', 'split-precinct', 'combined-precinct']);

/** The most names of a list that are told at once, and the most units around a precinct that are looked at. */
const MOST_NAMED = 50;
const MOST_AROUND = 200;
const MOST_STYLES = 20;

export class Overview {
    /**
     * @param {import('./report_words.mjs').ReportWords} words
     * @param {{key: string[], parties: string[][], units: string[][]}[]} heads what `erd_ballots` tells of the ballot styles
     * @param {ReturnType<typeof import('./unprinted.mjs').unprintedIn>} unprinted what ballots leave out
     */
    constructor(words, heads, { elections, contests, members }) {
        Object.assign(this, { words, heads, elections, members });
        this.unlisted = contests.map(namesOf).sort(byName);
        this.rows = this.precinctRows();
        this.groups = { all: this.rows, none: this.rows.filter(({ count }) => count === 0), several: this.rows.filter(({ several }) => several) };
    }

    /** The counts of objects and of precincts, the contests that no ballot has, and the members that no ballot prints. */
    told() {
        const counts = { style: this.heads.length, ...Object.fromEntries(PARTS.map((part) => [part, this.words.of(part).size])) };
        const precincts = Object.fromEntries(Object.entries(this.groups).map(([name, rows]) => [name, rows.length]));
        return { counts, precincts, unlisted: { count: this.unlisted.length, names: this.unlisted.slice(0, MOST_NAMED) },
            unprinted: { count: this.members.length, kinds: this.members.slice(0, MOST_NAMED) } };
    }

    /** Some precincts of a group, each with the codes of its ballot styles. */
    precincts({ group, from, count }) {
        return this.groups[group].slice(from, from + count);
    }

    // The precincts that have no precinct in them, by name. A ballot style is for a precinct if it names it or a unit around it.
    precinctRows() {
        const around = aroundOf(this.words);
        const styles = this.stylesByUnit();
        const isOuter = (unit) => partsOf(unit, this.words).some(isPrecinct);
        return [...this.words.of('unit').values()].filter((unit) => isPrecinct(unit) && !isOuter(unit))
            .map((unit) => this.rowOf(unit, stylesOf(unit, around, styles))).sort(byName);
    }

    rowOf(unit, styles) {
        const codes = styles.map((style) => textOfTriple(style.key));
        return { ...namesOf(unit), count: styles.length, codes: codes.slice(0, MOST_STYLES), several: this.isRepeated(styles) };
    }

    // Two ballot styles of one election for the same parties: nothing says which one a voter gets.
    isRepeated(styles) {
        const kinds = styles.map(({ key, parties }) => JSON.stringify([this.elections.get(textOfKey(key)), parties]));
        return new Set(kinds).size < kinds.length;
    }

    stylesByUnit() {
        const styles = new Map();
        for (const style of this.heads) {
            for (const key of style.units) {
                const unit = this.words.thing('unit', key);
                const there = styles.get(unit) ?? [];
                there.push(style);
                styles.set(unit, there);
            }
        }
        return styles;
    }
}

function namesOf({ title, key }) {
    return { name: title ?? '', code: textOfTriple(key) };
}

function byName(one, other) {
    return orderForReader(one.name, other.name) || orderForReader(one.code, other.code);
}

function isPrecinct({ words: { Type } }) {
    return PRECINCTS.has(Type);
}

function partsOf({ words: { ComposingGpUnitIds = [] } }, words) {
    return ComposingGpUnitIds.map((key) => words.thing('unit', key));
}

/** The units of which each unit is a part. */
export function aroundOf(words) {
    const around = new Map();
    for (const unit of words.of('unit').values()) {
        for (const part of partsOf(unit, words)) {
            around.set(part, [...around.get(part) ?? [], unit].slice(0, MOST_AROUND));
        }
    }
    return around;
}

/** Units, and what is around them. */
export function unitsAround(units, around) {
    const found = new Set(units);
    for (const one of found) {
        if (found.size < units.length + MOST_AROUND) {
            around.get(one)?.forEach((outer) => found.add(outer));
        }
    }
    return [...found];
}

// The ballot styles of a unit and of all that is around it.
function stylesOf(unit, around, styles) {
    return [...new Set(unitsAround([unit], around).flatMap((one) => (styles.get(one) ?? []).slice(0, MOST_AROUND)))];
}
