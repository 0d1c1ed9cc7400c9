// Which files are chosen: by a dialogue, by dropping them, or as an example.
import { element, theirs } from './dom.mjs';
import { EXAMPLES, filesOfExample } from './examples.mjs';
import { sizeText } from './record.mjs';
import { say } from './texts.mjs';

const $ = (id) => document.getElementById(id);
const SIDES = [0, 1];

export class Choice {
    /**
     * @param {Record<string, string>} examples the texts of the examples
     * @param {{changed: (how?: {ofTable?: boolean}) => void, many: (files: {file: File, name: string, isLeftOut?: boolean}[]) => void}} told
     *     what is called when one file or two are chosen, and when more are
     */
    constructor(examples, { changed, many }) {
        this.examples = examples;
        this.changed = changed;
        this.many = many;
        this.slots = [null, null];
    }

    begin() {
        for (const side of SIDES) {
            $(`input-${side}`).addEventListener('change', ({ target }) => this.choose(side, [...target.files]));
            $(`remove-${side}`).addEventListener('click', () => this.remove(side));
        }
        $('choose-others').addEventListener('click', () => this.focus());
        $('choose-second').addEventListener('click', () => $('input-1').click());
        for (const id of ['input-many', 'input-folder']) {
            $(id).addEventListener('change', ({ target }) => {
                const files = [...target.files].map((file) => ({ file, name: file.webkitRelativePath || file.name }));
                this.takeMany(id === 'input-folder' ? ofFolder(files) : files);
                target.value = '';
            });
        }
        this.takeDrops();
        this.relabel();
    }

    /** What is said in the language of the page. */
    relabel() {
        $('examples').replaceChildren(...EXAMPLES.map(({ name }) => element('li', {}, element('button',
            { type: 'button', click: () => this.example(name) }, say(`example.${name}`)))));
        this.show();
    }

    takeDrops() {
        const over = (is) => document.body.classList.toggle('dropping', is);
        addEventListener('dragover', (event) => {
            event.preventDefault();
            over(true);
        });
        addEventListener('dragleave', (event) => over(event.relatedTarget !== null));
        addEventListener('drop', (event) => {
            event.preventDefault();
            over(false);
            const slot = event.target.closest?.('[data-slot]');
            this.takeDropped(slot === null || slot === undefined ? null : Number(slot.dataset.slot), event.dataTransfer);
        });
    }

    // Folders have to be asked for before anything is waited for.
    async takeDropped(slot, transfer) {
        const items = [...transfer.items].filter(({ kind }) => kind === 'file');
        const dropped = items.map((item) => folderOf(item) ?? item.getAsFile()).filter((one) => one !== null);
        if (dropped.every((one) => one instanceof File)) {
            this.dropped(slot, dropped.length > 0 ? dropped : [...transfer.files]);
            return;
        }
        const filesOf = async (one) => (one instanceof File ? [{ file: one, name: one.name }] : ofFolder(await one.files));
        const files = await Promise.all(dropped.map(filesOf)).catch(() => null);
        if (files === null) {
            this.tell(say('files.folderNotRead'));
        } else {
            this.takeMany(files.flat());
        }
    }

    // Files that came together. Two of them are compared; of more, and where one of a folder is left out, there is a table that names each.
    takeMany(files) {
        this.tell(files.length === 0 ? say('files.noneInFolder') : null);
        if (files.length > 0 && files.length <= 2 && files.every(({ isLeftOut }) => !isLeftOut)) {
            this.slots = [files[0].file, files[1]?.file ?? null];
            this.changed();
        } else if (files.length > 0) {
            this.many(files);
        }
    }

    tell(text) {
        $('files-message').hidden = text === null;
        $('files-message').textContent = text ?? '';
        if (text !== null) {
            $('announcement').textContent = text;
        }
    }

    // Files that were dropped outside the two slots go into the first free one; if there is none, they begin anew.
    dropped(slot, files) {
        const before = this.files;
        const free = this.slots.indexOf(null);
        if (slot === null && free < 0) {
            this.slots = [null, null];
        }
        this.choose(slot ?? Math.max(free, 0), files);
        const gone = before.filter((file) => files.length > 0 && !this.slots.includes(file));
        if (gone.length > 0) {
            this.tell(say('files.gone', { names: gone.map(({ name }) => theirs(name).textContent).join(', ') }));
        }
    }

    choose(side, files) {
        if (files.length === 0) {
            return;
        }
        this.tell(null);
        if (files.length > 2) {
            this.takeMany(files.map((file) => ({ file, name: file.name })));
            return;
        }
        if (files.length === 2) {
            this.slots = files;
        } else {
            this.slots[side] = files[0];
        }
        this.changed();
    }

    remove(side) {
        this.slots = side === 0 ? [this.slots[1], null] : [this.slots[0], null];
        this.changed();
        this.focus();
    }

    example(name) {
        const files = filesOfExample(name, this.examples);
        this.slots = [files[0], files[1] ?? null];
        this.changed();
    }

    /** Shows what files are chosen by, and gives it the focus. */
    focus() {
        this.fold(false);
        $('input-0').focus();
    }

    // What is chosen in one line, or all by which files are chosen.
    fold(isFolded) {
        $('files-open').hidden = isFolded;
        $('files-folded').hidden = !isFolded;
    }

    /** What is chosen in one line: one file or two, or so many. */
    folded(count) {
        const { files } = this;
        const names = files.map(({ name }, side) => element('span', {}, side === 0 ? '' : ', ', theirs(name)));
        $('files-chosen').replaceChildren(...names.length > 0 ? names : [say('many.heading', { count })], ' ');
        $('choose-second').hidden = files.length !== 1;
        const hadFocus = $('files-open').contains(document.activeElement);
        this.fold(true);
        if (hadFocus) {
            $('choose-others').focus();
        }
    }

    show() {
        if (this.slots[0] === null && this.slots[1] !== null) {
            this.slots.reverse();
        }
        for (const side of SIDES) {
            const file = this.slots[side];
            $(`name-${side}`).replaceChildren(...(file === null ? [say('files.none')]
                : [theirs(file.name), ` (${sizeText(file.size)})`]));
            $(`remove-${side}`).hidden = file === null;
            $(`input-${side}`).value = '';
        }
    }

    /** Prepared copies in place of the files, each in its place. The choice of an identifier stays. */
    exchange(copies) {
        copies.forEach((copy, index) => {
            this.slots[index] = copy;
        });
        this.changed();
    }

    /** Two files of a table, to be compared. */
    pair(files) {
        this.slots = [...files];
        this.changed({ ofTable: true });
    }

    get files() {
        return this.slots.filter((file) => file !== null);
    }
}

// The files of a folder. Those that are not named as JSON or XML are left out, and named.
function ofFolder(files) {
    return files.map((one) => ({ ...one, isLeftOut: !/\.(json|xml)$/i.test(one.name) }));
}

// A folder that was dropped; null if the item is none. Chromium reads no entries of it for a page that was opened from the disk, but
// handles. Firefox and Safari have entries alone.
function folderOf(item) {
    const entry = item.webkitGetAsEntry?.() ?? null;
    return !entry?.isDirectory ? null
        : { name: entry.name, files: item.getAsFileSystemHandle === undefined ? filesInEntry(entry)
            : item.getAsFileSystemHandle().then((handle) => filesInHandle(handle, '')) };
}

/** All files in a folder, and in those below it. */
async function filesInHandle(handle, above) {
    const name = above + handle.name;
    if (handle.kind === 'file') {
        return [{ file: await handle.getFile(), name }];
    }
    const files = [];
    for await (const below of handle.values()) {
        files.push(...await filesInHandle(below, `${name}/`));
    }
    return files;
}

/** The same by entries, of which a browser tells some at a time. */
async function filesInEntry(folder) {
    const reader = folder.createReader();
    const entries = [];
    for (let some = await read(reader); some.length > 0; some = await read(reader)) {
        entries.push(...some);
    }
    const files = await Promise.all(entries.map(async (entry) => (entry.isDirectory ? filesInEntry(entry)
        : [{ file: await new Promise((resolve, reject) => entry.file(resolve, reject)), name: entry.fullPath.replace(/^\//, '') }])));
    return files.flat();
}

function read(reader) {
    return new Promise((resolve, reject) => reader.readEntries(resolve, reject));
}
