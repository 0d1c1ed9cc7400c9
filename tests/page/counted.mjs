// For the tests of the page in Node: counts cases. One line for each that fails, and the counts at the end.
import { readFileSync } from 'node:fs';
import { useTexts } from '../../web/scripts/texts.mjs';

export const ROOT = new URL('../../', import.meta.url);
export const TEXTS = JSON.parse(readFileSync(new URL('web/texts.en.json', ROOT)));
let passed = 0;
let failed = 0;

useTexts(TEXTS, 'en');

/** One case: two values have the same JSON. */
export function equal(name, found, wanted) {
    const [one, other] = [JSON.stringify(found), JSON.stringify(wanted)];
    if (one === other) {
        passed++;
    } else {
        failed++;
        console.log(`FAILED  ${name}: ${one?.slice(0, 300)} in place of ${other?.slice(0, 300)}`);
    }
}

/** Prints the counts. */
export function counts() {
    console.log(`${passed} passed, ${failed} failed`);
    process.exitCode = failed === 0 ? 0 : 1;
}
