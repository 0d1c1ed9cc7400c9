// How a command ends. It ends with 0, 1 or 2 once it has judged its files, and has written all that it says of them. Whatever fails
// ends with 3, or with 4 if memory runs out, and with one sentence on standard error.
import { NoMemoryError, TooLongError } from './calls.mjs';
import { STANDARD_ERROR, Stop, write } from './files.mjs';
import { NotJson } from './scanner.mjs';
import { visible } from './words.mjs';

/**
 * Runs a command, and returns its status. Where it ends early, says why.
 * @param {() => number | Promise<number>} run
 */
export async function statusOf(run) {
    try {
        return await run();
    } catch (error) {
        const { words, status } = endOf(error);
        tell(words);
        return status;
    }
}

function endOf(error) {
    if (error instanceof Stop) {
        return { words: error.message, status: error.status };
    }
    if (error instanceof NotJson) {
        return { words: 'not JSON', status: 2 };
    }
    if (error instanceof TooLongError) {
        return { words: 'too long', status: 3 };
    }
    // The engine throws a RangeError where a text or an array has no room.
    if (error instanceof NoMemoryError || error instanceof RangeError) {
        return { words: 'no memory', status: 4 };
    }
    return { words: `erd failed: ${visible(String(error)).replace(/\s+/g, ' ')}`, status: 3 };
}

function tell(words) {
    try {
        write(STANDARD_ERROR, `${words}\n`);
    } catch (error) {
        // Nobody can be told.
        if (!(error instanceof Stop)) {
            throw error;
        }
    }
}
