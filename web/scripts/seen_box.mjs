// Whether a voter sees any difference, in a box of its own: whether ballots differ comes from the proved code, and so do the words by which it is
// known what no ballot prints.
import { memberWords } from './comparison.mjs';
import { documentButton } from './documents.mjs';
import { element, saidWith } from './dom.mjs';
import { say } from './texts.mjs';

const MOST_LEFT_OUT = 12;

/** The sentence on the ballots of both files. */
export function seenSentence({ seen: { ballots: { all, differing } } }) {
    return differing > 0 ? say('seen.differ', { differing, all }) : say(all === 0 ? 'seen.noBallots' : 'seen.shownSame');
}

/** The box for the differences that the list has. */
export function seenBox(listed) {
    const { count, seen: { ballots, leftOut, noBallot, unseen } } = listed;
    const isQuiet = ballots.differing === 0 && leftOut.length === 0 && listed.listed === count;
    return element('section', { class: `seen ${isQuiet ? 'quiet' : 'touched'}`, 'aria-labelledby': 'seen' },
        element('h3', { id: 'seen' }, seenSentence(listed)), ...leftOutShown(leftOut), ...partShown(listed),
        unseen === 0 ? null : element('p', {}, say('seen.count.unseen', { count: unseen }), ' ', say('seen.of', { count })),
        unseen === 0 ? null : kindsShown(noBallot, 'no-ballot'),
        element('p', { class: 'note' }, say('seen.note'), ' ', documentButton('profile')));
}

/** What the ballots of the page leave out, and a voter may see. */
export function leftOutShown(leftOut) {
    return leftOut.length === 0 ? [] : [element('p', {}, say('seen.leftOut')), kindsShown(leftOut, 'left-out')];
}

function kindsShown(kinds, name) {
    const more = kinds.slice(MOST_LEFT_OUT).reduce((sum, { count }) => sum + count, 0);
    const lines = kinds.slice(0, MOST_LEFT_OUT).map((one) => element('li', {}, leftOutSentence(one)));
    return element('ul', { class: name }, ...lines, more === 0 ? null : element('li', {}, say('record.more', { count: more })));
}

/** Which differences the page has looked at for what the ballots leave out, where these are not all. */
export function partShown({ count, listed }) {
    return listed === count ? [] : [element('p', {}, say('seen.part', { listed, all: count }))];
}

/** What the ballots leave out of objects, and how often. */
export function leftOutSentence({ part, how, member, count }) {
    const values = { parts: say(`parts.${part}`), count };
    return how === 'member' ? saidWith('seen.leftOut.member', { member: memberWords(member) }, values)
        : say(how === 'other class' ? 'seen.leftOut.class' : 'seen.leftOut.object', values);
}
