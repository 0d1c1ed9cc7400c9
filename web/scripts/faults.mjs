// The faults of a file as cards, one for each kind: what it means, how it is fixed, and its places.
import { remedyOf } from '../../bindings/js/lib/prepare/prepared.mjs';
import { button, element, long, saidWith, save, theirs } from './dom.mjs';
import { excerptShown } from './excerpts.mjs';
import { GrowingList } from './growing.mjs';
import { say, sayIfKnown } from './texts.mjs';

/** How many places of a kind are shown at once. */
const AT_ONCE = 10;
const LONGEST_TITLE = 60;
const LONGEST_POINTER = 200;

/** All that is asked and known for the cards of one file. */
export class FaultCards {
    /**
     * @param {import('./client.mjs').Client} client
     * @param {Record<string, object>} fixes what is known of each reason
     * @param {{index: number, name: string, count: number, isReport: boolean}} file
     */
    constructor(client, fixes, file) {
        this.client = client;
        this.fixes = fixes;
        this.file = file;
    }

    /** The section of the file. */
    async section() {
        const { index, name, count } = this.file;
        const heading = `faults-${index}`;
        const { kinds, told } = await this.client.ask('kinds', { index });
        const cards = await Promise.all(kinds.map((kind) => this.card(kind)));
        return element('section', { 'aria-labelledby': heading, class: 'faults' },
            element('h3', { id: heading }, saidWith('faults.heading', { name: theirs(name) }, { count })),
            element('p', {}, say('faults.phases')), element('p', { class: 'kinds' }, say('faults.kinds', { count: kinds.length })),
            told < count ? element('p', {}, say('faults.first', { count: told })) : null,
            element('ol', { class: 'cards' }, ...cards), this.saveButton());
    }

    saveButton() {
        const saved = async () => save(new Blob(await this.client.ask('lines', { index: this.file.index })), 'faults.txt');
        return element('p', { class: 'save' }, button(say('faults.save'), saved), ' ', element('span', { class: 'note' }, say('faults.saveNote')));
    }

    async card({ reason, count, names }) {
        const fix = this.fixes[reason];
        const list = new GrowingList(element('ol', { class: 'places' }), {
            count,
            atOnce: AT_ONCE,
            entries: (from, some) => this.places(reason, from, some),
            label: (some) => say('faults.more', { count: some, all: count }),
            focus: '.place',
        });
        return element('li', { class: 'card', 'data-reason': String(reason) },
            element('h4', { tabindex: '-1' }, say(`reason.${reason}`), ' ', element('span', { class: 'count' }, say('faults.places', { count }))),
            ...paragraphs(fix.meaning), names.length === 0 ? null : namesShown(names), fixShown(fix, true), this.file.isReport ? remedyShown(reason) : null,
            ...await list.begun());
    }

    async places(reason, from, count) {
        const places = await this.client.ask('places', { index: this.file.index, reason, from, count });
        return places.map((place, at) => this.place(place, from + at === 0));
    }

    // Where a fault is, and the part of the file, which is open for the first fault of a kind.
    place(fault, open) {
        const excerpt = fault.excerpt === null ? null
            : element('details', { open }, element('summary', {}, say('faults.part')), this.excerpt(fault));
        return element('li', {}, where(fault), excerpt);
    }

    excerpt({ excerpt, start, end }) {
        const { index } = this.file;
        return excerptShown(excerpt, () => this.client.ask('part', { index, start, end }));
    }
}

/** How a kind of fault is fixed, and where it comes from. */
export function fixShown({ fixing, origin }, isOpen) {
    return element('details', { open: isOpen }, element('summary', {}, say('faults.fix')),
        ...paragraphs(fixing), element('p', { class: 'label' }, say('faults.origin')), ...paragraphs(origin));
}

// The steps that may fix faults of a kind, or that none can, and what to write to the vendor.
function remedyShown(reason) {
    const { steps } = remedyOf(reason);
    const names = steps.map((step) => say(`step.${step}`)).join(' · ');
    return element('div', { class: 'remedy' }, element('p', {}, steps.length === 0 ? say('faults.noStep') : say('faults.steps', { steps: names })),
        element('p', {}, element('span', { class: 'label' }, say('faults.letter')), ' ', element('q', {}, say(`letter.${reason}`))));
}

// The members that the faults of a kind are about.
function namesShown(names) {
    const shown = names.map(([name, count], index) => element('span', {}, index === 0 ? '' : ', ',
        element('code', {}, long(name, LONGEST_TITLE)), ` (${say('faults.times', { count })})`));
    return element('p', { class: 'names' }, element('span', { class: 'label' }, say('faults.names')), ' ', ...shown);
}

/** Where a fault or a change is: the trail for a reader, and the pointer for a vendor. */
export function where({ trail, pointer, name }) {
    const steps = trail.length === 0 ? [say('trail.report')] : trail.map((step) => element('span', {}, ...words(step)));
    const shownPointer = pointer === '' ? say('faults.emptyPointer') : element('code', {}, long(pointer, LONGEST_POINTER));
    const missing = name === undefined ? [] : [element('span', { class: 'label' }, say('faults.missing')), element('code', {}, long(name, LONGEST_TITLE))];
    return element('div', { class: 'place', tabindex: '-1' },
        element('span', { class: 'label' }, say('faults.where')), element('ol', { class: 'trail' }, ...steps.map((step) => element('li', {}, step))),
        ...missing, element('span', { class: 'label' }, say('faults.pointer')), element('span', { class: 'pointer' }, shownPointer));
}

/** A step of a trail in words. */
function words({ name, number, title }) {
    const known = number === null || name === null ? undefined : sayIfKnown(`trail.entry.${name}`, { number });
    const unknown = () => saidWith(name === null ? 'trail.entry' : number === null ? 'trail.member' : 'trail.entryOf',
        name === null ? {} : { name: long(name, LONGEST_TITLE) }, { number: number ?? 0 });
    const said = known ?? unknown();
    return title === null ? [said] : [said, ' ', saidWith('trail.title', { title: long(title, LONGEST_TITLE) })];
}

/** The paragraphs of docs/FIXES.md, in which pieces of code stand in lists of their own. */
export function paragraphs(texts) {
    return texts.map((pieces) => element('p', {}, ...pieces.map((piece) => (typeof piece === 'string' ? piece
        : element('code', {}, piece.code)))));
}
