// The card of an accepted file: its election, what it has, and which ballot styles its precincts have.
import { attempted } from './attempts.mjs';
import { described, element, saidWith, theirs } from './dom.mjs';
import { GrowingList } from './growing.mjs';
import { folded } from './on_request.mjs';
import { leftOutSentence } from './seen_box.mjs';
import { languageText, orderForReader, say, sayIfKnown } from './texts.mjs';

const AT_ONCE = 100;

/**
 * The section of the card.
 * @param {{client: import('./client.mjs').Client, tell: (progress: object) => void, sums: object, isLarge: boolean}} known of a large file
 *     the card is made when it is opened
 */
export async function cardOf(known) {
    const holder = element('div', {});
    const details = element('details', { id: 'card' }, element('summary', {}, element('h3', {}, say('card.heading'))), holder);
    if (known.isLarge) {
        details.addEventListener('toggle', () => attempted(holder, () => fill(holder, known)), { once: true });
    } else {
        details.open = true;
        await fill(holder, known);
    }
    return element('section', { class: 'file-card', 'aria-label': say('card.heading') }, details);
}

async function fill(holder, { client, tell, sums }) {
    const { counts, precincts, unlisted, unprinted } = await client.ask('overview', {}, tell);
    const languages = await client.ask('languages', {}, tell);
    holder.append(element('dl', {}, ...sums.elections.map(electionRow), described('card.kind', say(sums.isTest ? 'card.test' : 'card.real')),
        partRow(sums.envelope), described('card.counts', countsText(counts, precincts.all)),
        described('card.languages', languages.length === 0 ? say('record.none') : theirs(languages.map(languageText).sort(orderForReader).join(', ')))),
        ...troubles(client, precincts, unlisted),
        precincts.all === 0 ? '' : folded({ class: 'folded' }, say('card.precincts', { count: precincts.all }), () => table(client, 'all', precincts.all)),
        unprinted.count === 0 ? '' : folded({ class: 'folded unprinted' }, say('card.unprinted', { count: unprinted.count }), () => unprintedList(unprinted)));
}

function electionRow({ name, start, end, type }) {
    const kind = type === undefined ? [] : [theirs(sayIfKnown(`election.${type}`) ?? type), ', '];
    return described('record.election', element('span', {}, element('strong', {}, theirs(name)), ', ', ...kind,
        theirs(start === end ? start : `${start} – ${end}`)));
}

// Whether the report is the whole or one of several parts.
function partRow({ SequenceStart: part, SequenceEnd: all }) {
    return part === undefined || all === undefined ? null
        : described('card.part', all === '1' ? say('card.whole') : saidWith('card.partOf', { part: theirs(part), all: theirs(all) }));
}

function countsText(counts, precincts) {
    const shown = [['precinct', precincts], ...Object.entries(counts)].filter(([, count]) => count > 0);
    return shown.map(([part, count]) => say(`count.${part}`, { count })).join(', ');
}

// What a reader has to look at: precincts on no ballot style or on several, and contests that no ballot has.
function troubles(client, { none, several }, unlisted) {
    const list = (key, group, count) => (count === 0 ? null : folded({ class: 'warned' }, say(key, { count }), () => table(client, group, count)));
    const contests = unlisted.count === 0 ? null : folded({ class: 'warned' }, say('card.unlisted', { count: unlisted.count }), () => contestList(unlisted));
    const shown = [list('card.none', 'none', none), list('card.several', 'several', several), contests].filter((one) => one !== null);
    return shown.length > 0 ? shown : [element('p', {}, say('card.fine'))];
}

async function contestList({ names, count }) {
    return [element('ul', {}, ...names.map(({ name, code }) => element('li', {}, theirs(name), ' (', theirs(code), ')')),
        count === names.length ? null : element('li', {}, say('record.more', { count: count - names.length })))];
}

async function unprintedList({ kinds, count }) {
    return [element('ul', {}, ...kinds.map((kind) => element('li', {}, leftOutSentence(kind))),
        count === kinds.length ? null : element('li', {}, say('record.more', { count: count - kinds.length })))];
}

async function table(client, group, count) {
    const heads = ['card.precinct', 'card.code', 'card.styles'].map((key) => element('th', { scope: 'col' }, say(key)));
    const head = element('thead', {}, element('tr', {}, ...heads));
    const list = new GrowingList(element('table', { class: 'precincts' }, head), {
        count,
        atOnce: AT_ONCE,
        entries: async (from, some) => (await client.ask('precincts', { group, from, count: some })).map(precinctRow),
        label: (some) => say('card.more', { count: some, all: count }),
        focus: 'th',
    });
    const [shown, ...more] = await list.begun();
    return [element('div', { class: 'scrolled', tabindex: '0', role: 'group', 'aria-label': say('card.precincts', { count }) }, shown), ...more];
}

function precinctRow({ name, code, codes, count }) {
    const styles = count === 0 ? element('em', {}, say('record.none')) : theirs(codes.join(', '));
    return element('tr', {}, element('th', { scope: 'row' }, theirs(name)), element('td', {}, theirs(code)),
        element('td', {}, styles, count > codes.length ? ` ${say('record.more', { count: count - codes.length })}` : null));
}
