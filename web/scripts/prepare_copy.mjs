// Prepares a copy of a refused file: the steps that apply, what each would change, and what is done with the copy.
import { Cancelled } from './client.mjs';
import { documentButton } from './documents.mjs';
import { button, described, element, saidWith, save, theirs } from './dom.mjs';
import { where } from './faults.mjs';
import { plainName } from './from_xml/shown.mjs';
import { sumShown } from './sums.mjs';
import { numberText, say, sayIfKnown } from './texts.mjs';

const GROUPS = ['removed', 'filled-in', 'visible', 'view'];

/** How many milliseconds an answer may take before its progress is shown. */
const BEFORE_PROGRESS = 300;

// What is known of each copy that this page has made: the name and the sum of its file, and the steps.
const COPIES = new WeakMap();

/** What is known of a file that is a copy; undefined if it is none. */
export function copyKnown(file) {
    return COPIES.get(file);
}

/** The section of a refused file in which a copy is prepared. */
export class CopyMaker {
    /**
     * @param {import('./client.mjs').Client} client
     * @param {{index: number, files: File[], names: string[], isPair: boolean, takesCopies: (copies: File[]) => void}} known the file,
     *     by its place among those that were chosen; whether these are two, each of which can be prepared; and what judges others in
     *     their place
     */
    constructor(client, known) {
        Object.assign(this, known);
        this.client = client;
        this.name = this.names[this.index];
        this.body = element('div', { class: 'preparing', 'data-shown': '0' });
    }

    section() {
        const heading = `prepare-${this.index}`;
        this.body.append(this.beginning());
        return element('section', { class: 'prepare screen', 'aria-labelledby': heading },
            element('h3', { id: heading }, saidWith('prepare.heading', { name: theirs(this.name) })),
            element('p', {}, say('prepare.note')), this.body, element('p', { class: 'note' }, say('prepare.letter'), ' ', documentButton('letter')));
    }

    /** Asks what these steps do, and shows it. The focus stays where it was. */
    async show(chosen, focus = null) {
        const steps = await this.asked('preparation', { index: this.index, steps: chosen }).catch((error) => (error instanceof Cancelled ? error : undefined));
        this.body.dataset.shown = String(Number(this.body.dataset.shown) + 1);
        if (steps instanceof Cancelled) {
            this.cancelled();
            return;
        }
        if (!steps?.length) {
            const why = steps === undefined ? 'sentence.failed' : steps === null ? 'prepare.notJson' : 'prepare.none';
            this.body.replaceChildren(element('p', { tabindex: '-1' }, say(why)));
            this.body.firstChild.focus();
            return;
        }
        const groups = GROUPS.map((group) => this.group(group, steps.filter((step) => step.group === group)));
        const numbers = steps.filter(({ group }) => group === null).map(numbersShown);
        this.body.replaceChildren(...numbers, ...groups.filter((group) => group !== null), this.buttons(steps.some(({ done, count }) => done && count > 0)));
        (document.getElementById(focus) ?? this.body.querySelector('input'))?.focus();
    }

    beginning() {
        return element('p', {}, button(say('prepare.begin'), () => this.show(null), { class: 'main', id: `prepare-begin-${this.index}` }));
    }

    cancelled() {
        this.body.replaceChildren(element('p', {}, say('trouble.cancelled')), this.beginning());
        this.body.querySelector('button').focus();
    }

    // Asks the worker. What takes long shows how far it is, with a button that ends it.
    async asked(kind, question) {
        const stage = element('span', { id: `prepare-stage-${this.index}` }, say('progress.start'));
        const meter = element('progress', { max: '1', 'aria-labelledby': stage.id });
        const cancel = button(say('progress.cancel'), () => this.client.cancel(), { class: 'small' });
        const shown = element('p', { class: 'prepare-progress' }, stage, ' ', meter, ' ', cancel);
        const waiting = setTimeout(() => this.body.prepend(shown), BEFORE_PROGRESS);
        this.body.setAttribute('aria-busy', 'true');
        try {
            return await this.client.ask(kind, question, ({ stage: key, done, total }) => {
                stage.textContent = say(`progress.${key}`, { name: this.name });
                if (total > 0) {
                    meter.value = done / total;
                }
            });
        } finally {
            clearTimeout(waiting);
            shown.remove();
            this.body.setAttribute('aria-busy', 'false');
        }
    }

    group(group, steps) {
        return steps.length === 0 ? null : element('fieldset', { class: group },
            element('legend', {}, say(`prepare.group.${group}`)), element('ul', { class: 'steps' }, ...steps.map((step) => this.step(step))));
    }

    step(step) {
        const id = `step-${this.index}-${step.name}`;
        const box = element('input', { type: 'checkbox', id, 'data-step': step.name, checked: step.done, change: () => this.show(this.steps(), id) });
        return element('li', {},
            element('p', {}, element('label', { for: id }, box, ' ', element('strong', {}, say(`step.${step.name}`))),
                step.count === 0 ? null : element('span', { class: 'count' }, ` ${say('prepare.count', { count: step.count })}`)),
            element('p', { class: 'note' }, say(`step.${step.name}.does`), ' ', say(`step.${step.name}.loses`)),
            step.count === 0 ? null : preview(step), step.leftCount === 0 ? null : leftOf(step));
    }

    steps() {
        return [...this.body.querySelectorAll('input:checked')].map((box) => box.dataset.step);
    }

    buttons(isChanged) {
        return element('p', { class: 'buttons' },
            button(say('prepare.check'), () => this.check(), { class: 'main', id: `prepare-check-${this.index}`, disabled: !isChanged }),
            this.isPair ? button(say('prepare.both'), () => this.checkBoth(), { id: `prepare-both-${this.index}`, disabled: !isChanged }) : null,
            button(say('prepare.save'), async () => save(await this.copyOf(this.index), copyName(this.name)), { disabled: !isChanged }),
            button(say('prepare.saveChanges'), async () => save(new Blob(await this.asked('preparedChanges', this.question(this.index))),
                `${copyName(this.name).replace(/\.json$/, '')}.changes.json`), { disabled: !isChanged }));
    }

    question(index) {
        return { index, steps: this.steps() };
    }

    // The copy of a file on which the chosen steps were done, or the file itself where these change nothing.
    async copyOf(index) {
        const { bytes, ...known } = await this.asked('preparedCopy', this.question(index));
        if (known.steps.length === 0) {
            return this.files[index];
        }
        const copy = new File([bytes], copyName(this.names[index]), { type: 'application/json' });
        COPIES.set(copy, known);
        return copy;
    }

    async check() {
        const copy = await this.copyOf(this.index);
        this.takesCopies(this.files.map((file, index) => (index === this.index ? copy : file)));
    }

    // Both files, prepared by the same steps, in the place of both.
    async checkBoth() {
        this.takesCopies([await this.copyOf(0), await this.copyOf(1)]);
    }
}

/** The name of the copy of a file of this name. */
export function copyName(name) {
    return `${plainName(name).replace(/\.raw$/i, '')}.prepared.json`;
}

// Numbers that the copy has in another form, before any step.
function numbersShown({ made, count }) {
    const rows = made.map(({ line, column, before, after }) => element('li', {}, say('prepare.numbers.where', { line, column }), ' ', theirs(before), ' → ', theirs(after)));
    return element('details', { class: 'numbers' }, element('summary', {}, say('prepare.numbers', { count })),
        element('p', { class: 'note' }, say('prepare.numbers.note')), element('ol', {}, ...rows), moreOf(made, count));
}

function moreOf(made, count) {
    return count > made.length ? element('p', { class: 'note' }, say('prepare.more', { count: count - made.length })) : null;
}

// The first changes of a step, before and after.
function preview({ name, made, count }) {
    const rows = made.map(({ before, after, ...place }) => element('li', {}, where(place), element('dl', { class: 'change' },
        described('prepare.before', valueShown(before)), described('prepare.after', valueShown(after)))));
    return element('details', { 'data-preview': name }, element('summary', {}, say('prepare.preview')), element('ol', {}, ...rows),
        moreOf(made, count));
}

function valueShown(text) {
    return text === null ? element('em', {}, say('prepare.absent')) : element('code', {}, theirs(text));
}

function leftOf({ left, leftCount }) {
    const rows = left.map(({ why, ...place }) => element('li', {}, where(place), element('p', {}, say(`step.left.${why}`))));
    return element('details', {}, element('summary', {}, say('prepare.left', { count: leftCount })), element('ol', {}, ...rows));
}

/** What stands below the verdict on a file whose notes say that it is a copy. */
export function claimNotice(known) {
    return element('section', { class: 'prepared-copy', 'aria-label': say('prepare.isCopy') },
        element('p', {}, saidWith('prepare.claims', { name: theirs(known.name) })), known.converted ? element('p', {}, say('prepare.claimsConverted')) : null,
        stepsShown(known));
}

/** What stands below the verdict on a copy: where it comes from, and a button that saves it. */
export function copyNotice(file, known) {
    return element('section', { class: 'prepared-copy', 'aria-label': say('prepare.isCopy') },
        element('p', {}, saidWith('prepare.copyOf', { name: theirs(known.name) })), stepsShown(known),
        element('p', { class: 'buttons screen' }, button(say('prepare.save'), () => save(file, file.name), { class: 'save-copy' })));
}

function stepsShown({ steps }) {
    return element('ul', { class: 'steps-done' },
        ...steps.map(({ name, count }) => element('li', {}, `${sayIfKnown(`step.${name}`) ?? name} (${numberText(count)})`)));
}

/** What the record has of a copy: a label and a value each. */
export function copyRecorded(known) {
    return [
        ['record.preparedOf', theirs(known.name)],
        ['record.preparedSum', sumShown(known.original, 'original', false)],
        ...(known.converted === true ? [['record.converted', say('record.claimedWords')]] : []),
        ['record.preparedSteps', stepsShown(known)],
    ];
}
