// erd: canonical form, check and comparison of pre-election ballot definitions.
import { Erd } from './lib/calls.mjs';

export { WordList } from './lib/ballot_words.mjs';
export { BallotDifferences, Ballots, BallotsBeside, OneBallot } from './lib/ballots.mjs';
export { Erd, MOST_BYTES, MOST_LISTED, NoMemoryError, TooLongError } from './lib/calls.mjs';
export { TrapError } from './lib/engine.mjs';
export { repeatedNames } from './lib/repeated.mjs';
export { Canonical, Checked, Compared, Differences } from './lib/results.mjs';

/**
 * Loads the proved code. Without an argument, it reads `erd.wasm` beside this file, in Node and in a browser.
 * @param {Uint8Array | ArrayBuffer | WebAssembly.Module} [source] the module, if it does not stand beside this file
 * @returns {Promise<Erd>}
 */
export async function load(source) {
    return new Erd(await compiled(source ?? await besideThisFile()));
}

function compiled(source) {
    return source instanceof WebAssembly.Module ? source : WebAssembly.compile(source);
}

async function besideThisFile() {
    const place = new URL('erd.wasm', import.meta.url);
    if (place.protocol === 'file:') {
        const { readFile } = await import('node:fs/promises');
        return readFile(place);
    }
    const answer = await fetch(place);
    if (!answer.ok) {
        throw new Error(`${place} could not be read: status ${answer.status}`);
    }
    return answer.arrayBuffer();
}
