// What the page shows of one judgement: the verdict as soon as it is there, and then all that follows from it.
import { attempted } from './attempts.mjs';
import { BallotList } from './ballot_list.mjs';
import { BallotSentences } from './ballot_sentences.mjs';
import { cardOf } from './card.mjs';
import { firstDifference, useExplanations } from './comparison.mjs';
import { differenceList, listBegun, ownOffer, ownSentence, typeOffer } from './difference_list.mjs';
import { button, element, saidWith, theirs } from './dom.mjs';
import { convertedNotices } from './from_xml/shown.mjs';
import { differencesFiled, faultsFiled, MOST_FILED } from './findings.mjs';
import { envelopeTable, fileNotices, notesNotice, sameBytesNotice } from './notices.mjs';
import { claimNotice, copyKnown, copyNotice } from './prepare_copy.mjs';
import { recordOf } from './record.mjs';
import { troublesOf } from './refused.mjs';
import { seenBox } from './seen_box.mjs';
import { say } from './texts.mjs';
import { banner, sentencesOn, verdictOf } from './verdict.mjs';

/** The parts of a result, in their order. */
const PARTS = ['verdict', 'notices', 'copies', 'seen', 'sentences', 'offer', 'differences', 'troubles', 'card', 'ballots', 'note', 'record'];

/** The bytes of a canonical form from which on the card is made only when it is opened. */
const LARGE = 10_000_000;

/** How many differences are shown before the names of objects are known, where there are at least so many that this takes time. */
const FIRST_SHOWN = 50;
const MANY = 1000;

export class Result {
    /**
     * @param {{client: import('./client.mjs').Client, again: () => void, data: object, top: HTMLElement, holder: HTMLElement,
     *     names: string[], files: File[], prefer: string | null,
     *     isCurrent: () => boolean, tell: (progress: object) => void, offerTypes: (types: string[]) => void,
     *     prefers: (type: string) => void, takesCopies: (copies: File[]) => void}} known `prefers` judges again under a type of
     *     identifier, and `takesCopies` judges prepared copies in place of the files
     */
    constructor(known) {
        Object.assign(this, known);
        useExplanations(this.data.fixes);
        this.date = new Date();
        this.hasVerdict = false;
        this.listed = null;
    }

    /** Shows the verdict, and returns its heading. */
    async verdict() {
        this.answer = await this.client.ask('verdict', {}, this.tell);
        if (!this.isCurrent()) {
            return '';
        }
        this.parts = Object.fromEntries(PARTS.map((name) => [name, element('div', { 'data-part': name })]));
        this.verdictShown = verdictOf(this.answer);
        const conversions = this.files.map((_, index) => this.conversionOf(index));
        this.put('verdict', banner(this.verdictShown, ...sentencesOn(this.answer, this.names, conversions)));
        this.put('copies', ...this.files.filter(copyKnown).map((file) => copyNotice(file, copyKnown(file))));
        if (this.answer.comparison?.first) {
            this.put('differences', firstDifference(this.answer.comparison.first, this.names));
        }
        const { verdict, notices, ...others } = this.parts;
        this.top.replaceChildren(verdict, notices);
        this.holder.replaceChildren(...Object.values(others));
        this.hasVerdict = true;
        return this.verdictShown.title;
    }

    // How many differences there are, and of very many the first ones, before the names of objects are known.
    async showBeginning() {
        const begun = await this.client.ask('begun', { most: FIRST_SHOWN }, this.tell);
        if (this.isCurrent() && begun?.count > 1) {
            const { count, entries } = begun;
            const told = count < MANY ? element('p', { id: 'count' }, say('difference.count', { count })) : listBegun(entries, count, this.names);
            this.put('differences', firstDifference(this.answer.comparison.first, this.names), told);
        }
    }

    /** Shows what follows from the verdict: what differs, or what is wrong, and then all else. */
    async rest() {
        if (this.answer.comparison?.first) {
            await this.showBeginning();
            await this.list();
        }
        this.put('troubles', ...await troublesOf(this.answer.files, this.names, this.client,
            { fixes: this.data.fixes, chosen: this.files, takesCopies: this.takesCopies }));
        this.sums = await this.client.ask('sums', {}, this.tell);
        if (!this.isCurrent()) {
            return;
        }
        this.types = [...new Set(this.sums.flatMap(({ types }) => types ?? []))].sort();
        const mayHelp = this.answer.comparison?.same === false || this.answer.files.some(({ outcome }) => outcome === 'refused');
        this.offerTypes(this.types, this.types.length > 1 && mayHelp);
        this.showNotices();
        this.showCopies();
        await this.showRecord();
        this.showBallots();
        await this.showCard();
        if (this.listed !== null) {
            await this.showOffers();
        }
    }

    // The ballots of all files, if all are accepted, and there is memory to say which of them differ.
    showBallots() {
        if (this.sums.every(({ canonical }) => canonical !== undefined) && !this.answer.comparison?.noMemory) {
            this.put('ballots', new BallotList(this.client, { names: this.names, sums: this.sums, version: this.data.version, tell: this.tell }).section());
        }
    }

    // What one accepted file has.
    async showCard() {
        const [sums] = this.sums;
        if (this.sums.length === 1 && sums.canonical !== undefined) {
            const card = await cardOf({ client: this.client, tell: this.tell, sums, isLarge: sums.canonical.size > LARGE });
            if (this.isCurrent()) {
                this.put('card', card);
            }
        }
    }

    // What differs on the ballots, in sentences.
    async showSentences() {
        if (this.listed.seen?.ballots.differing > 0) {
            const section = await new BallotSentences(this.client, this.tell).section();
            if (this.isCurrent()) {
                this.put('sentences', section);
            }
        }
    }

    async list() {
        this.listed = await this.client.ask('list', {}, this.tell);
        if (!this.isCurrent()) {
            return;
        }
        if (this.listed === null || this.listed.seen === null) {
            this.put('note', element('p', { class: 'note' }, say(this.listed === null ? 'difference.noList' : 'difference.tooLarge')));
        }
        if (this.listed === null) {
            return;
        }
        this.put('seen', this.listed.seen === null ? null : seenBox(this.listed));
        await this.showSentences();
        this.put('differences', firstDifference(this.listed.first, this.names), await differenceList(this.client, this.listed, this.names));
    }

    // What else the files could be compared by.
    async showOffers() {
        const better = await this.client.ask('betterType', { types: this.types }, this.tell);
        if (this.isCurrent()) {
            this.put('offer', better === null ? null : typeOffer(better, this.prefers));
            await this.offerOwnView();
        }
    }

    // A view without the identifiers that only one file has. It stands below the verdict, and in the record.
    async offerOwnView() {
        const types = await this.client.ask('ownTypes', {}, this.tell);
        const offer = types === null || !this.isCurrent() ? null : ownOffer(types, this.names, () => attempted(this.parts.offer, () => this.showOwnView()));
        if (offer !== null) {
            this.parts.offer.append(offer);
        }
    }

    async showOwnView() {
        this.ownView = await this.client.ask('ownView', {}, this.tell);
        if (!this.isCurrent()) {
            return;
        }
        this.parts.offer.querySelector('.own-offer')?.remove();
        this.parts.verdict.append(element('section', { class: 'notice own-view', 'aria-labelledby': 'own-view' },
            element('h3', { id: 'own-view', tabindex: '-1' }, ownSentence(this.ownView)), element('p', {}, say('own.note'))));
        document.getElementById('own-view').focus();
        await this.showRecord();
    }

    // What stands right below the verdict, and the envelopes behind it.
    showNotices() {
        const envelopes = this.sums.map(({ envelope }) => envelope);
        const isCompared = this.answer.comparison !== null && !envelopes.includes(undefined);
        this.put('notices', sameBytesNotice(this.sums), isCompared ? notesNotice(envelopes, this.names) : null, ...this.conversionNotices(),
            ...this.sums.flatMap((sums, index) => fileNotices(sums, this.names[index], index, this.prefer)));
        if (isCompared) {
            this.parts.verdict.querySelector('.envelope')?.append(envelopeTable(envelopes, this.names));
        }
    }

    async showRecord() {
        const findings = await this.findings();
        if (!this.isCurrent()) {
            return;
        }
        this.put('record', recordOf({
            files: this.answer.files.map((file, index) => ({
                ...file, ...this.sums[index], copied: this.originOf(index), conversion: this.conversionOf(index),
            })),
            names: this.names, prefer: this.prefer,
            version: this.data.version, pageSum: this.data.pageSum, verdict: this.verdictShown.title, date: this.date, findings, listed: this.listed,
            ownView: this.ownView,
            notices: [...this.parts.notices.querySelectorAll('h3')].map((heading) => heading.cloneNode(true).childNodes),
        }, this.client));
    }

    // A copy that was saved and opened again says so too.
    showCopies() {
        const claims = this.sums.filter(({ prepared }, index) => prepared && copyKnown(this.files[index]) === undefined);
        this.parts.copies.append(...claims.map(({ prepared }) => claimNotice(prepared)));
    }

    // What is known of a file that is a copy of this page, or says so.
    originOf(index) {
        return copyKnown(this.files[index]) ?? this.sums[index].prepared ?? undefined;
    }

    // What is known of the conversion of a file, or of the one that it is a copy of; null if it was not in XML.
    conversionOf(index) {
        return this.answer.files[index].converted ?? copyKnown(this.files[index])?.converted ?? null;
    }

    conversionNotices() {
        return this.files.flatMap((file, index) => convertedNotices(this.conversionOf(index), {
            name: copyKnown(file)?.name ?? this.names[index], index, client: copyKnown(file) === undefined ? this.client : null,
            isRefused: this.answer.files[index].outcome === 'refused',
        }));
    }

    // What the record has of the differences or the faults.
    async findings() {
        if (this.listed) {
            const entries = await this.client.ask('more', { isFiled: true, from: 0, count: MOST_FILED });
            return differencesFiled(entries, this.listed, this.names);
        }
        const refused = this.answer.files.map((file, index) => ({ ...file, index })).filter(({ outcome }) => outcome === 'refused');
        const parts = await Promise.all(refused.map(async ({ index, faults }) => faultsFiled(
            await this.client.ask('firstLines', { index, count: MOST_FILED }), faults, this.names[index])));
        return parts.length === 0 ? null : element('div', {}, ...parts);
    }

    /** The rest was cancelled, or failed by an error. The verdict stays. */
    stopped(error) {
        const said = error === null ? say('sentence.restCancelled')
            : saidWith('sentence.restFailed', { error: theirs(String(error.message)) });
        this.put('note', element('p', { class: 'note', id: 'stopped' }, said), element('p', {}, button(say('trouble.again'), this.again)));
    }

    put(name, ...nodes) {
        this.parts[name].replaceChildren(...nodes.filter((node) => node !== null));
    }
}
