// The section of ballots: a list of ballot styles that can be narrowed by a precinct, each built when it is opened.
import { attempted } from './attempts.mjs';
import { BallotPrint, MOST_SAME, MOST_STYLES } from './ballot_print.mjs';
import { ballotShown, itemsShown, spoken } from './ballot_view.mjs';
import { button, element, theirs } from './dom.mjs';
import { GrowingList } from './growing.mjs';
import { filterField, folded } from './on_request.mjs';
import { languageText, orderForReader, say } from './texts.mjs';
import { shortened } from './visible.mjs';

const AT_ONCE = 50;
const MOST_NAMES = 12;
const LONGEST_NAMES = 400;

/** All that is known and asked for the ballots of one file or two. */
export class BallotList {
    /**
     * @param {import('./client.mjs').Client} client
     * @param {{names: string[], sums: {sha256: string}[], version: string, tell: (progress: object) => void}} known
     */
    constructor(client, known) {
        this.client = client;
        this.isPair = known.names.length === 2;
        this.known = known;
        this.tell = known.tell;
        this.holder = element('div', {});
        this.lang = '';
    }

    /** The section. Its content is made when it is opened. */
    section() {
        const details = element('details', { id: 'ballots' }, element('summary', {}, element('h3', {}, say('ballots.heading'))), this.holder);
        details.addEventListener('toggle', () => attempted(this.holder, () => this.begin()), { once: true });
        return element('section', { class: 'ballots', 'aria-label': say('ballots.heading') }, details);
    }

    async begin() {
        this.languages = await this.client.ask('languages', {}, this.tell);
        this.printer = new BallotPrint({ ...this.known, isPair: this.isPair, languages: this.languages, part: (key, next) => this.part(key, next) });
        this.lists = element('div', {});
        this.holder.replaceChildren(element('p', { class: 'note' }, say('ballots.note'), ' ', this.isPair ? say('ballots.noteTwo') : ''),
            this.controls(), this.lists);
        await this.fill();
    }

    controls() {
        const named = this.languages.map((lang) => [lang, theirs(languageText(lang)).textContent]).sort(([, one], [, other]) => orderForReader(one, other));
        const options = [['', say('ballots.allLanguages')], ...named].map(([lang, name]) => element('option', { value: lang }, name));
        const language = element('select', { id: 'ballot-language' }, ...options);
        language.addEventListener('change', () => this.speak(language.value));
        return element('div', { class: 'controls screen' },
            filterField('ballot-filter', say('ballots.filter'), this.lists, (words) => this.fill(words)),
            this.languages.length < 2 ? null : element('p', {}, element('label', { for: 'ballot-language' }, say('ballots.language')), ' ', language),
            this.printControl());
    }

    printControl() {
        const holder = element('p', {});
        const all = button(this.printLabel(), () => attempted(holder, () => this.printAll(all)));
        holder.append(all);
        return holder;
    }

    printLabel() {
        return say(this.isPair ? 'ballots.printDiffering' : 'ballots.printAll');
    }

    async fill(words = '') {
        this.words = words;
        const { counts } = await this.styles(null, 0, 0);
        if (words !== this.words) {
            return;
        }
        const groups = this.isPair ? [['differing', false], ['same', true]] : [['all', false]];
        const lists = await Promise.all(groups.filter(([group]) => counts[group] > 0).map(([group, folded]) => this.list(group, counts[group], folded)));
        const shown = lists.length > 0 ? lists : [element('p', { class: 'none' }, say('ballots.none'))];
        const told = this.isPair ? [element('p', {}, say('ballots.counts', { changed: counts.differing, all: counts.differing + counts.same }))] : [];
        this.lists.replaceChildren(...told, ...shown);
    }

    styles(group, from, count) {
        return this.client.ask('styles', { words: this.words, group, from, count }, this.tell);
    }

    async list(group, count, folded) {
        const list = new GrowingList(element('ol', { class: 'styles' }), {
            count,
            atOnce: AT_ONCE,
            entries: async (from, some) => (await this.styles(group, from, some)).entries.map((entry) => this.entry(entry)),
            label: (some) => say('ballots.more', { count: some, all: count }),
            focus: 'summary',
        });
        const begun = await list.begun();
        return folded ? element('details', {}, element('summary', {}, say('ballots.same', { count })), ...begun) : element('div', {}, ...begun);
    }

    // A ballot style: what it is called, and the ballot when it is opened.
    entry(style) {
        const { key, code, units, parties, mark } = style;
        const names = units.length > MOST_NAMES ? [...units.slice(0, MOST_NAMES), '…'] : units;
        const summary = [element('strong', {}, cut(code)), ' ', cut(names.join(', ')),
            parties.length === 0 ? null : element('span', {}, ' (', cut(parties.join(', ')), ')'),
            this.isPair ? element('span', { class: `badge ${mark}`.trim() }, say(`ballots.mark.${mark}`)) : null];
        return element('li', {}, folded({ class: 'style', 'data-key': key }, summary, () => this.build(style)));
    }

    async build(style) {
        const ballot = await this.ballot(style.key);
        const tried = element('p', { class: 'screen' });
        tried.append(button(say('ballots.printOne'), () => attempted(tried, () => this.printer.print([style], this.lang, null)), { class: 'small' }));
        return [...belowShown(style), ballot, tried];
    }

    // The first part of a ballot. What is left can be shown.
    async ballot(key) {
        const part = await this.part(key, null);
        const ballot = ballotShown(part);
        if (part.next !== null) {
            ballot.append(this.rest(ballot, key, part));
        }
        spoken(ballot, this.lang);
        return ballot;
    }

    part(key, next) {
        return this.client.ask('ballot', { key, next }, this.tell);
    }

    rest(ballot, key, { next, left }) {
        const holder = element('p', { class: 'rest' }, element('strong', {}, say('ballots.left', { count: left })), ' ');
        holder.append(button(say('ballots.rest'), () => attempted(holder, async () => {
            const part = await this.part(key, next);
            holder.replaceWith(...itemsShown(part), ...(part.next === null ? [] : [this.rest(ballot, key, part)]));
            spoken(ballot, this.lang);
        }), { class: 'small screen' }));
        return holder;
    }

    /** Shows one language alone, or all. */
    speak(lang) {
        this.lang = lang;
        spoken(this.holder, lang);
    }

    // Prints the ballots that the list has, those that are not shown yet too: as many at a time as a browser can take. Of two files those are
    // printed that differ, and the others are named behind the last one.
    async printAll(all) {
        const { words } = this;
        const group = this.isPair ? 'differing' : 'all';
        const begin = this.printed?.words === words ? this.printed.next : 0;
        const { entries, counts } = await this.styles(group, begin, MOST_STYLES);
        const isLast = begin + entries.length === counts[group];
        const same = this.isPair && isLast ? { entries: (await this.styles('same', 0, MOST_SAME)).entries, count: counts.same } : null;
        const next = begin + await this.printer.print(entries, this.lang, same);
        this.printed = { words, next: next < counts[group] ? next : 0 };
        all.textContent = next < counts[group] ? say('ballots.printNext', { next: next + 1, all: counts[group] }) : this.printLabel();
    }
}

// What differs on a ballot, as the program says it.
function belowShown({ below, allBelow }) {
    return allBelow === 0 ? [] : [element('p', { class: 'screen' }, say('ballots.below')),
        element('pre', { class: 'below screen' }, theirs(below.join('\n'), '\n')),
        allBelow === below.length ? null : element('p', { class: 'screen' }, say('record.more', { count: allBelow - below.length }))];
}

// The beginning of a long text.
function cut(text) {
    return theirs(shortened(text, LONGEST_NAMES));
}
