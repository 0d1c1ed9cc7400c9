// The verdict on one file or two, in a heading and a sentence.
import { element, long, saidWith, theirs } from './dom.mjs';
import { convertedSentence } from './from_xml/shown.mjs';
import { envelopeDetails } from './notices.mjs';
import { say } from './texts.mjs';

const MOST_BYTES = 67108864;
const LONGEST_STATUS = 60;
const TONES = { accepted: 'good', refused: 'bad' };

/**
 * What the whole answer says.
 * @returns {{tone: 'good' | 'bad' | 'stop', title: string}}
 */
export function verdictOf({ files, comparison }) {
    if (comparison?.noMemory) {
        return { tone: 'stop', title: say('verdict.noMemory') };
    }
    if (comparison !== null) {
        return comparison.same ? { tone: 'good', title: say('verdict.same') } : { tone: 'bad', title: say('verdict.different') };
    }
    return files.length === 1 ? verdictOfFile(files[0]) : { tone: 'stop', title: say('verdict.notCompared') };
}

function verdictOfFile({ outcome, faults }) {
    return { tone: TONES[outcome] ?? 'stop', title: say(`verdict.${outcome}`, { count: faults ?? 0 }) };
}

/** The banner of a verdict. */
export function banner({ tone, title }, ...sentences) {
    return element('div', { class: `banner ${tone}` },
        element('span', { class: 'sign', 'aria-hidden': 'true' }, { good: '✓', bad: '✗', stop: '!' }[tone]),
        element('div', {}, element('h2', { id: 'verdict', tabindex: '-1' }, title), ...sentences));
}

/** The sentences below the heading. `conversions` has what is known of each file that was converted from XML. */
export function sentencesOn(answer, names, conversions) {
    return [...judgedSentences(answer, names), ...conversions.map((converted, index) => convertedSentence(converted, names[index]))];
}

function judgedSentences({ files, comparison }, names) {
    if (comparison === null) {
        return files.map((file, index) => sentenceOn(file, names[index]));
    }
    if (comparison.noMemory) {
        return [element('p', {}, say('sentence.compareNoMemory'))];
    }
    return [element('p', {}, say(comparison.same ? 'sentence.same' : 'sentence.different')), envelopeDetails()];
}

function sentenceOn(file, name) {
    const { outcome, faults, size } = file;
    const said = element('p', {}, saidWith(`sentence.${outcome}`, { name: theirs(name) }, { count: faults ?? 0, size, most: MOST_BYTES }));
    const more = sentenceBeside(file);
    return more === null ? said : element('div', {}, said, element('p', {}, more));
}

// What a refused file is, if it is no ElectionReport from before the election.
function sentenceBeside({ status, other }) {
    if (status !== undefined) {
        return saidWith('sentence.afterElection', { status: long(status, LONGEST_STATUS) });
    }
    return other === undefined ? null : say(`sentence.${other}`);
}
