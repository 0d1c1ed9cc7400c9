// Many files at once: a table of verdicts, in which files that mean the same are of one group. Any two can be compared.
import { MOST_BYTES } from '../../bindings/js/lib/calls.mjs';
import { csvOf } from './csv.mjs';
import { button, element, long, save, saidWith, theirs } from './dom.mjs';
import { convertedLines, isConverted } from './from_xml/shown.mjs';
import { sizeText } from './record.mjs';
import { codeOf } from './sums.mjs';
import { say } from './texts.mjs';

const LONGEST_NOTES = 200;

/** The columns, with what each sorts by. */
const COLUMNS = [
    ['name', ({ name }) => name], ['size', ({ size }) => size],
    ['verdict', ({ outcome, faults }) => `${outcome} ${String(faults ?? 0).padStart(12, '0')}`],
    ['group', ({ group }) => group ?? Infinity], ['code', ({ canonical }) => canonical?.sha256 ?? '~'],
];

export class ManyFiles {
    /**
     * @param {HTMLElement} holder
     * @param {{file: File, name: string}[]} files
     * @param {{client: import('./client.mjs').Client, judgedFile: (file: File, tell: (progress: object) => void) => Promise<object>,
     *     compare: (files: File[]) => void, say: (text: string) => void}} known `judgedFile` gives the file that is judged in place of one
     */
    constructor(holder, files, known) {
        Object.assign(this, known);
        this.holder = holder;
        this.files = files;
        this.isJudged = false;
        this.rows = files.map(({ file, name, isLeftOut }) => ({ file, name, size: file.size, outcome: isLeftOut === true ? 'leftOut' : null }));
        this.chosen = [];
        this.sorted = { column: 0, falling: false };
    }

    /** Judges each file, as many at a time as there are workers, and shows what is known. */
    async judge(prefer, tell, isCurrent) {
        const clients = [this.client, ...Array.from({ length: this.workers() - 1 }, () => this.client.another())];
        const judged = this.rows.filter(({ outcome }) => outcome === null);
        const rows = judged.values();
        let done = 0;
        try {
            await Promise.all(clients.map(async (client) => {
                for (const row of rows) {
                    tell({ stage: 'survey', name: row.name, done, total: judged.length });
                    const form = await this.judgedFile(row.file, (progress) => tell({ ...progress, name: row.name }));
                    Object.assign(row, await client.ask('survey', { ...form, prefer }));
                    done++;
                    if (!isCurrent()) {
                        return;
                    }
                }
            }));
        } finally {
            clients.slice(1).forEach((client) => client.leave());
        }
        if (!isCurrent()) {
            return;
        }
        this.group();
        this.isJudged = true;
        this.show();
        this.say(this.summary());
    }

    // One worker for each processor, but no more than that their files together are as large as one file may be.
    workers() {
        const largest = this.rows.reduce((most, { size }) => Math.max(most, size), 1);
        return Math.max(1, Math.min(navigator.hardwareConcurrency ?? 1, this.rows.length, Math.floor(MOST_BYTES / largest)));
    }

    // Files with one canonical form are of one group. Groups are counted from the largest one on.
    group() {
        const groups = new Map();
        for (const row of this.rows.filter(({ canonical }) => canonical !== undefined)) {
            groups.set(row.canonical.sha256, [...groups.get(row.canonical.sha256) ?? [], row]);
        }
        const ranked = [...groups.values()].sort((one, other) => other.length - one.length);
        ranked.forEach((rows, index) => rows.forEach((row) => Object.assign(row, { group: index + 1, groupSize: rows.length })));
        this.groups = ranked.length;
    }

    summary() {
        const countOf = (wanted) => this.rows.filter(({ outcome }) => outcome === wanted).length;
        const leftOut = countOf('leftOut');
        return [say('many.accepted', { count: countOf('accepted'), all: this.rows.length }), say('many.groups', { count: this.groups }),
            ...(leftOut === 0 ? [] : [say('many.leftOut', { count: leftOut })])].join(' ');
    }

    show() {
        this.table = element('tbody', { role: 'rowgroup' });
        const heads = COLUMNS.map(([key], index) => element('th', { scope: 'col', role: 'columnheader', 'aria-sort': 'none' },
            button(say(`many.${key}`), () => this.sort(index), { class: 'small' })));
        this.heads = heads;
        this.note = element('p', { class: 'screen' }, say('many.choose'));
        this.holder.replaceChildren(element('section', { class: 'many', 'aria-labelledby': 'many' },
            element('h2', { id: 'many', tabindex: '-1' }, say('many.heading', { count: this.rows.length })),
            element('p', {}, this.summary()), element('p', { class: 'note' }, say('many.note')), this.note,
            element('div', { class: 'scrolled', tabindex: '0', role: 'group', 'aria-label': say('many.caption') },
                element('table', { role: 'table' }, element('caption', { class: 'visually-hidden' }, say('many.caption')),
                    element('thead', { role: 'rowgroup' }, element('tr', { role: 'row' }, ...heads,
                        element('th', { scope: 'col', role: 'columnheader' }, say('many.notices')),
                        element('th', { scope: 'col', role: 'columnheader', class: 'screen' }, say('many.compare')))), this.table)),
            element('p', { class: 'buttons screen' }, button(say('many.print'), () => this.print(), { class: 'main' }),
                button(say('many.save'), () => save(new Blob([csvOf(this.records())], { type: 'text/csv' }), 'ballots.csv')))));
        this.fill();
    }

    // Sorts by a column; by the same one again, the other way round.
    sort(column) {
        this.sorted = { column, falling: this.sorted.column === column && !this.sorted.falling };
        this.fill();
    }

    fill() {
        const { column, falling } = this.sorted;
        const [, valueOf] = COLUMNS[column];
        const order = (one, other) => (one < other ? -1 : one > other ? 1 : 0) * (falling ? -1 : 1);
        const rows = [...this.rows].sort((one, other) => order(valueOf(one), valueOf(other)));
        this.heads.forEach((head, index) => head.setAttribute('aria-sort', index !== column ? 'none' : falling ? 'descending' : 'ascending'));
        this.table.replaceChildren(...rows.map((row) => this.row(row)));
    }

    row(row) {
        const { name, size, outcome, faults, group, groupSize, canonical } = row;
        const choose = button(say(this.chosen.includes(row) ? 'many.chosen' : 'many.chooseOne'), () => this.choose(row),
            { class: 'small', 'aria-pressed': String(this.chosen.includes(row)), 'aria-label': say('many.chooseName', { name: theirs(name).textContent }) });
        return element('tr', { role: 'row', 'data-row': String(this.rows.indexOf(row)) }, element('th', { scope: 'row', role: 'rowheader' }, theirs(name)),
            cell(sizeText(size)), cell(say(`verdict.${outcome}`, { count: faults ?? 0 })),
            cell(group === undefined ? null : groupSize === 1 ? say('many.alone', { group }) : say('many.same', { group, count: groupSize })),
            cell(canonical === undefined ? null : element('code', {}, codeOf(canonical.sha256))), cell(this.noticesOn(row)),
            cell(outcome === 'leftOut' ? null : choose, 'screen'));
    }

    // What a reader should know of a file beside its verdict.
    noticesOn(row) {
        const others = this.rows.filter((one) => row.group !== undefined && one.group === row.group);
        const differ = others.some(({ notes }) => notes !== row.notes);
        const lines = [row.repeated > 0 ? say('many.repeated') : null, row.isTest ? say('many.test') : null, ...convertedLines(row.converted),
            differ ? saidWith(row.notes === null ? 'many.noNotes' : 'many.notes', { notes: long(row.notes ?? '', LONGEST_NOTES) }) : null];
        return element('div', {}, ...lines.filter((line) => line !== null).map((line) => element('div', {}, line)));
    }

    // The second file that is chosen is compared with the first one.
    choose(row) {
        this.chosen = this.chosen.includes(row) ? this.chosen.filter((one) => one !== row) : [...this.chosen, row];
        this.note.textContent = say(this.chosen.length === 1 ? 'many.chooseOther' : 'many.choose');
        this.say(this.note.textContent);
        if (this.chosen.length === 2) {
            const files = this.chosen.map(({ file }) => file);
            this.chosen = [];
            this.compare(files);
        }
        this.fill();
        this.table.querySelector(`[data-row="${this.rows.indexOf(row)}"] button`)?.focus();
    }

    records() {
        const heads = ['file', 'bytes', 'verdict', 'faults', 'group', 'sha256', 'canonical_sha256', 'names_written_twice', 'test', 'notes',
            'converted_from_xml_without_proof', 'converted_sha256', 'not_understood'];
        const rows = this.rows.map(({ name, size, outcome, faults, group, sha256, canonical, repeated, isTest, notes, converted }) => [name, size, outcome,
            faults ?? '', group ?? '', sha256 ?? '', canonical?.sha256 ?? '', repeated ?? '', isTest ? 'yes' : '', notes ?? '',
            ...(isConverted(converted) ? ['yes', converted.form.sha256, converted.allTold] : ['', '', ''])]);
        return [heads, ...rows];
    }

    print() {
        document.documentElement.dataset.print = 'many';
        addEventListener('afterprint', () => delete document.documentElement.dataset.print, { once: true });
        print();
    }
}

// On a narrow screen the cells stand below each other, where a table is one only by its roles.
function cell(content, name = false) {
    return element('td', { role: 'cell', class: name }, content);
}
