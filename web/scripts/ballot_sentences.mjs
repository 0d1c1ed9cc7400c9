// What differs on the ballots of two files in sentences, what most ballots have first: each can be opened for a ballot on which it is.
import { attempted } from './attempts.mjs';
import { ballotShown } from './ballot_view.mjs';
import { button, element, long, saidWith, theirs } from './dom.mjs';
import { GrowingList } from './growing.mjs';
import { filterField } from './on_request.mjs';
import { say, sayIfKnown } from './texts.mjs';

const AT_ONCE = 30;
const LONGEST = 120;
const MOST_CODES = 12;

export class BallotSentences {
    /**
     * @param {import('./client.mjs').Client} client
     * @param {(progress: object) => void} tell
     */
    constructor(client, tell) {
        this.client = client;
        this.tell = tell;
        this.lists = element('div', {});
    }

    /** The section; null if no ballot differs. */
    async section() {
        const { count } = await this.client.ask('onBallots', {}, this.tell);
        if (count === 0) {
            return null;
        }
        await this.fill('');
        return element('section', { class: 'on-ballots', 'aria-labelledby': 'on-ballots' },
            element('h3', { id: 'on-ballots' }, say('finding.heading', { count })), element('p', { class: 'note' }, say('finding.note')),
            count > 1 ? this.controls() : null, this.lists);
    }

    controls() {
        return element('div', { class: 'controls screen' }, filterField('finding-filter', say('finding.filter'), this.lists, (words) => this.fill(words)),
            element('p', { class: 'buttons' }, button(say('finding.previous'), () => this.step(-1), { class: 'small', id: 'finding-previous' }), ' ',
                button(say('finding.next'), () => this.step(1), { class: 'small', id: 'finding-next' })));
    }

    async fill(words) {
        this.words = words;
        const { count } = await this.some(0, 0);
        if (words !== this.words) {
            return;
        }
        if (count === 0) {
            this.lists.replaceChildren(element('p', { class: 'none' }, say('finding.none')));
            return;
        }
        this.list = new GrowingList(element('ol', { class: 'findings' }), {
            count,
            atOnce: AT_ONCE,
            entries: async (from, most) => (await this.some(from, most)).entries.map((entry) => this.entry(entry)),
            label: (most) => say('finding.more', { count: most, all: count }),
            focus: 'summary',
        });
        this.lists.replaceChildren(...await this.list.begun());
    }

    some(from, count) {
        return this.client.ask('someOnBallots', { words: this.words, from, count }, this.tell);
    }

    entry(entry) {
        const holder = element('div', {});
        const details = element('details', { class: 'finding' }, element('summary', {}, findingSentence(entry)), holder);
        details.addEventListener('toggle', () => attempted(holder, () => this.open(entry, holder)), { once: true });
        return element('li', {}, details, ...entry.alike.map((way) => element('p', { class: 'note' }, say(`alike.${way}`))));
    }

    // The ballots of a sentence, and the first of them.
    async open({ styles, count }, holder) {
        const codes = styles.slice(0, MOST_CODES).map(({ code, units }) => `${code}: ${units.join(', ')}`);
        const ballot = await this.client.ask('ballot', { key: styles[0].key, next: null }, this.tell);
        holder.append(element('ul', { class: 'codes' }, ...codes.map((code) => element('li', {}, long(code, LONGEST))),
            count > codes.length ? element('li', {}, say('record.more', { count: count - codes.length })) : null),
        element('p', { class: 'label' }, saidWith('finding.ballot', { code: theirs(styles[0].code) })), ballotShown(ballot));
        holder.querySelector('.ballot .ballot-mark, .ballot ins, .ballot del')?.scrollIntoView({ block: 'center' });
    }

    // Opens the sentence after the one that is open, or before it, and closes the others.
    async step(by) {
        const shown = [...this.lists.querySelectorAll('.finding')];
        const at = shown.findLastIndex((one) => one.open);
        const next = at < 0 ? (by > 0 ? 0 : shown.length - 1) : at + by;
        if (next >= shown.length) {
            const more = this.lists.querySelector('ol ~ p > button');
            more?.click();
            more?.focus();
            return;
        }
        shown.forEach((one, index) => {
            one.open = index === next;
        });
        shown[Math.max(next, 0)]?.querySelector('summary').focus();
    }
}

/** A thing that differs on ballots, as a sentence. */
export function findingSentence({ kind, subject, what, choice = '', role = '', left = '', right = '', count, all }) {
    const named = subject === '' ? say(`finding.kind.${kind}`) : element('strong', {}, long(subject, LONGEST));
    const nodes = { choice: element('strong', {}, long(choice, LONGEST)), left: value(left), right: value(right), role: roleText(role) };
    return saidWith('finding.sentence', { subject: named, what: saidWith(`finding.${what}`, nodes) }, { count, all });
}

function roleText(role) {
    return sayIfKnown(`finding.role.${role}`) ?? sayIfKnown(`member.${role}`) ?? role;
}

function value(text) {
    return text === '' ? element('em', {}, say('difference.notThere')) : saidWith('value.quoted', { text: long(text, LONGEST * 3) });
}
