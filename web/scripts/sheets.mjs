// Ballots on sheets of paper, in two columns. The sheets are made as they are printed, so that each has a head that says what it is of:
// a browser that breaks pages itself repeats no such head, and does not know how many sheets a ballot has.
import { columnsOf } from './columns.mjs';
import { element, saidWith, theirs } from './dom.mjs';

/** How many lines of a long piece stay together, and up to how many a piece is not long. */
const LINES = 5;
const MOST_LINES = 3 * LINES;

// What is left free, since a printer may break lines at other places than a screen.
const SLACK = 0.97;

/** Sheets that are being made. They stand in the document, and are not visible. */
export class Sheets {
    constructor() {
        this.holder = element('div', { class: 'print-pages measuring' });
        document.body.append(this.holder);
    }

    /**
     * Adds the sheets of a ballot, or of another list of pieces.
     * @param {import('./ballot_view.mjs').Piece[]} pieces
     * @param {(sheet: number, sheets: number) => Node[]} headOf what stands at the top of a sheet
     * @param {Node} foot what stands at the foot of each sheet
     */
    add(pieces, headOf, foot) {
        const room = this.room(headOf(1, 1), foot);
        const measured = this.measured(pieces);
        const starts = columnsOf(measured, room * SLACK);
        const columns = starts.map((start, at) => columnOf(measured[start - 1], measured.slice(start, starts[at + 1])));
        const count = Math.ceil(columns.length / 2);
        for (let sheet = 0; sheet < count; sheet++) {
            this.holder.append(sheetOf(headOf(sheet + 1, count), columns.slice(2 * sheet, 2 * sheet + 2), foot));
        }
    }

    // How high a column of a sheet is, below the line that says what goes on.
    room(head, foot) {
        const column = columnOf({ item: 0 }, [{ item: 0, title: '', element: '' }]);
        const sheet = sheetOf(head, [column], foot);
        this.holder.append(sheet);
        const height = column.getBoundingClientRect().height - column.firstChild.getBoundingClientRect().height;
        sheet.remove();
        return height;
    }

    // The pieces with their heights; long ones are cut between two lines.
    measured(pieces) {
        const column = columnOf(undefined, pieces);
        const sheet = sheetOf([], [column], '');
        this.holder.append(sheet);
        const line = parseFloat(getComputedStyle(column).lineHeight);
        const places = pieces.map(({ element: one }) => cutsOf(one, line));
        const cut = pieces.flatMap(({ element: one, ...piece }, at) => [one, ...cutAt(one, places[at])].map((part) => ({ ...piece, element: part })));
        const tops = cut.map(({ element: one }) => one.getBoundingClientRect().top);
        const bottom = cut.length === 0 ? 0 : cut.at(-1).element.getBoundingClientRect().bottom;
        const measured = cut.map((piece, at) => ({ ...piece, height: (tops[at + 1] ?? bottom) - tops[at] }));
        sheet.remove();
        return measured;
    }

    /** The sheets, which are ready to be printed. */
    made() {
        this.holder.classList.remove('measuring');
        return this.holder;
    }
}

// A column. One that begins within an item says so.
function columnOf(before, pieces) {
    const isBegun = before?.item >= 0 && before.item === pieces[0].item;
    const goesOn = isBegun ? element('p', { class: 'own goes-on' }, saidWith('sheet.goesOn', { title: theirs(pieces[0].title) })) : null;
    return element('div', { class: 'ballot column' }, goesOn, ...pieces.map((piece) => piece.element));
}

function sheetOf(head, columns, foot) {
    return element('div', { class: 'sheet' }, element('div', { class: 'sheet-head' }, ...head), element('div', { class: 'columns' }, ...columns),
        element('div', { class: 'sheet-foot' }, foot.cloneNode?.(true) ?? foot));
}

// The places at which a piece of many lines is cut: each at the first character of a line.
function cutsOf(piece, line) {
    const { top, height } = piece.getBoundingClientRect();
    const cuts = [];
    if (height > MOST_LINES * line) {
        const texts = textsOf(piece);
        for (let bottom = top + LINES * line; bottom < top + height - LINES * line; bottom += LINES * line) {
            const place = firstBelow(texts, bottom + line / 2);
            if (place !== null) {
                cuts.push(place);
            }
        }
    }
    return cuts;
}

function textsOf(piece) {
    const walker = document.createTreeWalker(piece, NodeFilter.SHOW_TEXT, (node) => (node.parentElement.closest('[hidden], .visually-hidden') === null
        ? NodeFilter.FILTER_ACCEPT : NodeFilter.FILTER_REJECT));
    const texts = [];
    for (let length = 0; walker.nextNode();) {
        texts.push({ node: walker.currentNode, start: length });
        length += walker.currentNode.length;
    }
    return texts;
}

// The first character that ends below a place of the page.
function firstBelow(texts, bottom) {
    const last = texts.at(-1);
    const length = last === undefined ? 0 : last.start + last.node.length;
    let [low, high] = [0, length];
    while (low < high) {
        const middle = (low + high) >> 1;
        [low, high] = bottomOf(characterAt(texts, middle)) > bottom ? [low, middle] : [middle + 1, high];
    }
    return low === 0 || low === length ? null : characterAt(texts, low);
}

function characterAt(texts, at) {
    const { node, start } = texts.findLast((text) => text.start <= at);
    return { node, offset: at - start };
}

function bottomOf({ node, offset }) {
    const range = document.createRange();
    range.setStart(node, offset);
    range.setEnd(node, offset + 1);
    return range.getBoundingClientRect().bottom;
}

// Cuts what stands behind these places off a piece, and returns it in pieces of the same form.
function cutAt(piece, places) {
    return [...places].reverse().map(({ node, offset }) => {
        const range = document.createRange();
        range.setStart(node, offset);
        range.setEnd(piece, piece.childNodes.length);
        const part = piece.cloneNode(false);
        part.classList.remove('begins');
        part.classList.add('continued');
        piece.classList.remove('ends');
        part.append(range.extractContents());
        piece.after(part);
        return part;
    }).reverse();
}
