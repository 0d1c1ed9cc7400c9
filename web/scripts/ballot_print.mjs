// What is printed of the ballots: each on sheets that say of which file and ballot style they are, in which language, and how many sheets it has.
import { ballotInPieces, pieceAlone, spoken } from './ballot_view.mjs';
import { element, saidWith, theirs } from './dom.mjs';
import { Sheets } from './sheets.mjs';
import { languageText, say } from './texts.mjs';
import { shortened } from './visible.mjs';

const PARTS_PRINTED = 10;
const MOST_NODES = 60_000;

/** The most ballot styles that are asked for at once, and the most of those that are the same and only named. */
export const MOST_STYLES = 2000;
export const MOST_SAME = 5000;

const LONGEST_NAMES = 300;

export class BallotPrint {
    /**
     * @param {{part: (key: string, next: object | null) => Promise<object>, languages: string[], isPair: boolean, names: string[],
     *     sums: {sha256: string}[], version: string}} known `part` asks for a part of a ballot
     */
    constructor(known) {
        Object.assign(this, known);
    }

    /**
     * Prints as many of these ballots as a browser can take, and tells how many these are.
     * @param {{key: string, code: string, units: string[], parties: string[], mark: string}[]} styles
     * @param {string} lang the language that is printed; empty for all
     * @param {{entries: object[], count: number} | null} same the ballot styles that are the same in both files: they are named behind the last
     *     of these ballots, and not printed
     */
    async print(styles, lang, same) {
        const sheets = new Sheets();
        try {
            let printed = 0;
            for (let nodes = 0; printed < styles.length && nodes <= MOST_NODES; printed++) {
                const style = styles[printed];
                const pieces = await this.pieces(style.key, lang);
                nodes += pieces.reduce((sum, piece) => sum + 1 + piece.element.querySelectorAll('*').length, 0);
                sheets.add(pieces, (sheet, count) => this.head(style, lang, sheet, count), this.foot());
            }
            if (same !== null && same.count > 0 && printed === styles.length) {
                sheets.add(sameInPieces(same), (sheet, count) => this.headOfSame(sheet, count), this.foot());
            }
            printSheets(sheets.made());
            return printed;
        } catch (error) {
            sheets.holder.remove();
            throw error;
        }
    }

    async pieces(key, lang) {
        let part = await this.part(key, null);
        const { lines } = part;
        const items = [...part.items];
        for (let parts = 1; part.next !== null && parts < PARTS_PRINTED; parts++) {
            part = await this.part(key, part.next);
            items.push(...part.items);
        }
        const pieces = ballotInPieces({ lines, items });
        if (part.next !== null) {
            pieces.push(pieceAlone(element('p', {}, element('strong', {}, say('sheet.left', { count: part.left })))));
        }
        pieces.forEach((piece) => spoken(piece.element, lang));
        return pieces;
    }

    head({ code, units, parties, mark }, lang, sheet, count) {
        const language = lang !== '' ? theirs(languageText(lang))
            : this.languages.length === 0 ? say('record.none') : theirs(cut(this.languages.map(languageText).join(', ')));
        return [
            element('p', { class: 'sheet-title' }, element('strong', {}, theirs(cut(code))), ` ${say('sheet.of', { sheet, count })}`),
            element('p', {}, say('ballot.role.units'), theirs(cut(units.join(', '))),
                ...(parties.length === 0 ? [] : [` — ${say('ballot.role.parties')}`, theirs(cut(parties.join(', ')))]),
                ...(this.isPair ? [' — ', element('strong', {}, say(`ballots.mark.${mark}`))] : [])),
            element('p', {}, saidWith(this.languages.length > 1 && lang === '' ? 'sheet.languages' : 'sheet.language', { language })),
            ...this.files(),
        ];
    }

    headOfSame(sheet, count) {
        return [element('p', { class: 'sheet-title' }, element('strong', {}, say('sheet.same')), ` ${say('sheet.of', { sheet, count })}`), ...this.files()];
    }

    // Each file with its sum.
    files() {
        return this.names.map((name, index) => element('p', { class: 'sheet-file' },
            saidWith(this.names.length === 1 ? 'sheet.file' : `sheet.file${index + 1}`, { name: theirs(cut(name)) }),
            ` SHA-256 ${this.sums[index].sha256}`));
    }

    foot() {
        return element('p', {}, say('sheet.foot', { version: this.version }));
    }
}

// The ballot styles that are the same, a line for each.
function sameInPieces({ entries, count }) {
    const line = ({ code, units, parties }) => element('p', { class: 'sheet-same' }, element('strong', {}, theirs(cut(code))), ' ',
        theirs(cut([...units, ...parties].join(', '))));
    const nodes = [element('p', {}, element('strong', {}, say('sheet.notPrinted', { count }))), ...entries.map(line),
        ...(count > entries.length ? [element('p', {}, say('record.more', { count: count - entries.length }))] : [])];
    return nodes.map(pieceAlone);
}

// Shows the sheets alone while they are printed.
function printSheets(pages) {
    document.documentElement.dataset.print = 'ballots';
    const over = () => {
        pages.remove();
        delete document.documentElement.dataset.print;
    };
    addEventListener('afterprint', over, { once: true });
    print();
}

function cut(text) {
    return shortened(text, LONGEST_NAMES);
}
