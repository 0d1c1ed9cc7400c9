// How much memory files need here, told before they are judged.
import { element, saidWith } from './dom.mjs';

/** How many bytes of memory the proved code takes here at most for a byte of an honest file, by itself and compared with another one. */
const TAKEN = { check: 25, compare: 40 };

/** From how many bytes on this is told. */
const LEAST_TOLD = 300_000_000;

/** How many bytes of memory such files can take, and which command takes less; null for files that take few. */
export function needsOf(files) {
    const command = files.length === 2 ? 'compare' : 'check';
    const bytes = TAKEN[command] * Math.max(...files.map(({ size }) => size));
    return bytes < LEAST_TOLD ? null : { megabytes: Math.ceil(bytes / 10_000_000) * 10, command: `erd ${command}` };
}

/** Tells it in a paragraph, which is hidden where there is nothing to tell. */
export function showNeeds(paragraph, files) {
    const needs = needsOf(files);
    paragraph.hidden = needs === null;
    if (needs !== null) {
        paragraph.replaceChildren(saidWith('progress.needs', { command: element('code', {}, needs.command) }, { size: needs.megabytes }));
    }
}
