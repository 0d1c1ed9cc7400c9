// A list that begins with some entries, and shows more when it is asked to.
import { attempted } from './attempts.mjs';
import { button, element } from './dom.mjs';

export class GrowingList {
    /**
     * @param {HTMLElement} list
     * @param {{count: number, atOnce: number, entries: (from: number, count: number) => Promise<HTMLElement[]>,
     *     label: (count: number) => string, focus: string}} of how many entries there are and are shown at once, what makes them,
     *     the label of the button, and what gets the focus in the first new entry
     */
    constructor(list, of) {
        this.list = list;
        this.of = of;
        this.placed = [];
    }

    /** How many entries are shown. Each number is there once. */
    get shown() {
        return this.placed.length;
    }

    /** Shows the first entries. Returns the list, and a button for more if there are more. */
    async begun() {
        await this.showMore();
        if (this.shown >= this.of.count) {
            return [this.list];
        }
        const more = button(this.label(), () => this.grow(more));
        return [this.list, element('p', {}, more)];
    }

    // What comes in is placed by its number, so no entry is there twice.
    async showMore() {
        const from = this.shown;
        const made = await this.of.entries(from, this.of.atOnce);
        if (made.length === 0) {
            throw new RangeError(`nothing came in behind entry ${from}`);
        }
        made.forEach((entry, at) => this.place(from + at, entry));
        return made[0];
    }

    place(number, entry) {
        if (number < this.placed.length) {
            this.placed[number].replaceWith(entry);
        } else {
            this.list.append(entry);
        }
        this.placed[number] = entry;
    }

    // The button is off while the list grows.
    async grow(more) {
        more.disabled = true;
        await attempted(more.parentElement, () => this.grown(more));
    }

    async grown(more) {
        try {
            const first = await this.showMore();
            first.querySelector(this.of.focus)?.focus();
        } finally {
            more.disabled = false;
        }
        if (this.shown < this.of.count) {
            more.textContent = this.label();
        } else {
            more.parentElement.remove();
        }
    }

    label() {
        return this.of.label(Math.min(this.of.atOnce, this.of.count - this.shown));
    }
}
