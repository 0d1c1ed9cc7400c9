// The page: it asks the worker about the files that are chosen, and shows what it answers.
import { showTroubles } from './attempts.mjs';
import { Choice } from './choice.mjs';
import { Cancelled, Client } from './client.mjs';
import { offerDocuments } from './documents.mjs';
import { button, element, saidWith, theirs } from './dom.mjs';
import { embedded, offerLicences } from './embedded.mjs';
import { judgedFile } from './from_xml/files.mjs';
import { firstLanguage, offerLanguages, useLanguage } from './languages.mjs';
import { ManyFiles } from './many.mjs';
import { showNeeds } from './needs.mjs';
import { sumOfPage } from './page_sum.mjs';
import { Result } from './result.mjs';
import { say } from './texts.mjs';
import { banner } from './verdict.mjs';

const $ = (id) => document.getElementById(id);

class Page {
    constructor(data) {
        this.data = data;
        this.client = new Client(() => workerOf(data.worker), this.start());
        this.choice = new Choice(data.examples, { changed: (how) => this.chosen(how), many: (files) => this.survey(files) });
        this.prefer = null;
        // The table of many files, if one is shown or being made.
        this.table = null;
        this.run = 0;
    }

    // What a worker needs first.
    start() {
        const { lang } = document.documentElement;
        return { wasm: this.data.wasm, texts: this.data.texts[lang], language: lang };
    }

    /** Puts the page into another language, and judges anew what is shown. */
    speak(language) {
        useLanguage(this.data.texts, language);
        this.client.restart(this.start());
        $('prefer-choice').hidden = true;
        this.choice.relabel();
        if (this.table !== null && !this.table.isJudged) {
            this.survey(this.table.files);
            return;
        }
        this.table?.show();
        this.judge();
    }

    begin() {
        offerLanguages($('language'), Object.keys(this.data.texts), document.documentElement.lang, (language) => this.speak(language));
        this.choice.begin();
        offerLicences($('licences'));
        offerDocuments();
        $('cancel').addEventListener('click', () => this.cancel());
        $('prefer').addEventListener('change', ({ target }) => this.preferred(target));
        showTroubles($('trouble'));
        document.documentElement.dataset.ready = 'yes';
    }

    // A table of many files stays while two of them are compared.
    chosen({ ofTable = false } = {}) {
        if (!ofTable) {
            $('many-files').replaceChildren();
            this.table = null;
        }
        this.prefer = null;
        $('prefer-choice').hidden = true;
        this.judge();
    }

    // A type that the page offers, by its difference.
    prefers(type) {
        $('prefer').value = type;
        this.prefer = type;
        this.judge();
        $('prefer').focus();
    }

    preferred({ value, selectedIndex }) {
        this.prefer = selectedIndex === 0 ? null : value;
        this.judge();
    }

    cancel() {
        this.isStopped = true;
        this.client.cancel();
        this.choice.focus();
    }

    /** Judges each of many files, and shows a table of them. */
    async survey(files) {
        const isCurrent = this.beginRun();
        this.choice.slots = [null, null];
        this.choice.show();
        this.choice.folded(files.length);
        $('prefer-choice').hidden = true;
        document.documentElement.dataset.shown = 'many';
        this.setBusy(true);
        const many = this.table = new ManyFiles($('many-files'), files, {
            client: this.client, judgedFile: (file, tell) => this.judgedFile(file, tell, isCurrent),
            compare: (pair) => this.choice.pair(pair), say: (text) => this.say(text),
        });
        try {
            await many.judge(null, (progress) => this.progress(progress, []), isCurrent);
        } catch (error) {
            if (isCurrent()) {
                this.failed(error, { hasVerdict: false });
            }
        }
        if (isCurrent()) {
            this.setBusy(false);
        }
    }

    // Gives up what was asked before. Tells whether nothing else was asked since.
    beginRun() {
        const run = ++this.run;
        this.isStopped = false;
        $('trouble').replaceChildren();
        $('result-top').replaceChildren();
        $('result-rest').replaceChildren();
        if (this.busy) {
            this.client.cancel();
        }
        return () => run === this.run;
    }

    /** Judges the files that are chosen, and shows what was found. An older run that has not ended is given up. */
    async judge() {
        const isCurrent = this.beginRun();
        this.choice.show();
        $('needs').hidden = true;
        this.setBusy(this.choice.files.length > 0);
        if (!this.busy) {
            if (this.table === null) {
                this.choice.fold(false);
                delete document.documentElement.dataset.shown;
            }
            return;
        }
        this.choice.folded(0);
        document.documentElement.dataset.shown = 'result';
        this.say(say('progress.start'));
        const { files } = this.choice;
        const judged = await this.judgedFiles(files, isCurrent);
        if (judged === null) {
            return;
        }
        const [forms, converted] = ['file', 'converted'].map((part) => judged.map((one) => one[part]));
        showNeeds($('needs'), forms);
        this.client.open({ files: forms, converted, prefer: this.prefer });
        const result = new Result({
            client: this.client, data: { ...this.data, fixes: this.data.fixes[document.documentElement.lang] }, top: $('result-top'), holder: $('result-rest'),
            names: files.map((file) => file.name), files, prefer: this.prefer,
            isCurrent, tell: (progress) => isCurrent() && this.progress(progress, files),
            offerTypes: (types, isOpen) => this.offerTypes(types, isOpen), prefers: (type) => this.prefers(type),
            takesCopies: (copies) => this.choice.exchange(copies), again: () => this.again(),
        });
        await this.shown(result, isCurrent);
        if (isCurrent()) {
            this.setBusy(false);
        }
    }

    // The file that is judged in place of one, and of one in XML what is known of its conversion. It stops where another run begins.
    judgedFile(file, tell, isCurrent) {
        return judgedFile(file, (done) => {
            if (this.isStopped || !isCurrent()) {
                throw new Cancelled();
            }
            tell({ stage: 'converting', done, total: file.size });
        });
    }

    // The same of all files that are chosen; null if it was stopped.
    async judgedFiles(files, isCurrent) {
        const judged = [];
        try {
            for (const [index, file] of files.entries()) {
                judged.push(await this.judgedFile(file, (progress) => this.progress({ ...progress, index }, files), isCurrent));
            }
        } catch (error) {
            if (isCurrent()) {
                this.failed(error, { hasVerdict: false });
                this.setBusy(false);
            }
            return null;
        }
        return isCurrent() ? judged : null;
    }

    async shown(result, isCurrent) {
        const started = performance.now();
        try {
            const verdict = await result.verdict();
            if (isCurrent()) {
                document.documentElement.dataset.milliseconds = String(Math.round(performance.now() - started));
                this.say(verdict);
                // What is above the verdict is short, but for a table of many files.
                $(this.table === null ? 'files-heading' : 'verdict').scrollIntoView({ block: 'start' });
                await result.rest();
            }
        } catch (error) {
            if (isCurrent()) {
                this.failed(error, result);
            }
        }
    }

    setBusy(busy) {
        this.busy = busy;
        $('progress').hidden = !busy;
        document.documentElement.dataset.busy = busy ? 'yes' : 'no';
    }

    progress({ stage, index, done, total, name }, files) {
        const shown = name ?? files[index]?.name ?? '';
        $('stage').replaceChildren(saidWith(`progress.${stage}`, { name: theirs(shown) }));
        if (total > 0) {
            $('meter').value = done / total;
        } else {
            $('meter').removeAttribute('value');
        }
    }

    failed(error, result) {
        const cancelled = error instanceof Cancelled;
        if (result.hasVerdict) {
            result.stopped(cancelled ? null : error);
            return;
        }
        const title = say(cancelled ? 'verdict.cancelled' : 'verdict.failed');
        const sentence = element('p', {}, say(cancelled ? 'sentence.cancelled' : 'sentence.failed'));
        $('result-top').replaceChildren(banner({ tone: 'stop', title }, sentence,
            cancelled ? null : element('p', {}, theirs(String(error.message)), ' ', button(say('trouble.again'), () => this.again()))));
        this.say(title);
    }

    // Judges the same files again, with another worker if this one could not begin.
    again() {
        this.client.renew();
        this.judge();
    }

    /** Offers the types of identifier that the files have, open where another one may help. The choice stays while a user goes through it. */
    offerTypes(types, isOpen) {
        if (!$('prefer-choice').hidden) {
            return;
        }
        const options = types.map((type) => element('option', { value: type }, theirs(type).textContent));
        $('prefer').replaceChildren(element('option', { value: '' }, say('prefer.none')), ...options);
        $('prefer').value = this.prefer ?? '';
        $('prefer-choice').hidden = types.length === 0;
        $('prefer-choice').open = this.prefer !== null || isOpen;
    }

    // Tells a screen reader.
    say(text) {
        $('announcement').textContent = text;
    }
}

function workerOf(script) {
    const address = URL.createObjectURL(new Blob([script], { type: 'text/javascript' }));
    const worker = new Worker(address);
    URL.revokeObjectURL(address);
    return worker;
}

async function begin() {
    const data = await embedded();
    const pageSum = await sumOfPage(data);
    useLanguage(data.texts, firstLanguage(Object.keys(data.texts), navigator.languages, data.language));
    new Page({ ...data, pageSum }).begin();
}

begin().catch((error) => {
    $('announcement').classList.remove('visually-hidden');
    $('announcement').textContent = `${$('announcement').dataset.failed} ${error.message}`;
});
