// For the tests of the package for JavaScript: counts cases, with one line for each that fails.
let passed = 0;
let failed = 0;

function said(name, isRight, why) {
    if (isRight) {
        passed++;
    } else {
        failed++;
        console.log(`FAILED  ${name}: ${why}`);
    }
}

/** One case: two texts or numbers are the same. */
export function equal(name, found, wanted) {
    said(name, found === wanted, `${JSON.stringify(found)?.slice(0, 300)} in place of ${JSON.stringify(wanted)?.slice(0, 300)}`);
}

/** One case: an error of this kind is thrown, with these words if they are given. */
export function throws(name, kind, act, words = null) {
    try {
        act();
        said(name, false, 'nothing was thrown');
    } catch (error) {
        said(name, error instanceof kind && (words === null ? error.message !== '' : error.message === words), String(error));
    }
}

/** Prints the counts, and sets the status by them. */
export function counts() {
    console.log(`${passed} passed, ${failed} failed`);
    process.exitCode = failed === 0 ? 0 : 1;
}
