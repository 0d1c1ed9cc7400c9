// The result of the call that lists what ballots print.
import { Checked, checkedOf } from './results.mjs';

/** What ballots print of the objects of a report, each object once, or why nothing is listed. */
export class WordList extends Checked {
    /**
     * @param {object[]} entries what `erd_words` answers for an accepted report
     * @param {number} allEntries how many the list has
     */
    constructor({ outcome, faults, allFaults }, entries, allEntries) {
        super(outcome, faults, allFaults);
        this.entries = entries;
        this.allEntries = allEntries;
        this.more ||= entries.length < allEntries;
    }
}

/**
 * The result of `words`.
 * @param {boolean} accepted whether the report is
 * @param {'not JSON' | object[]} answer the value that `erd_words` answers
 * @param {number} all how many entries, or faults, there are
 */
export function wordsOf(accepted, answer, all) {
    return accepted ? new WordList(checkedOf([], 0), answer, all) : new WordList(checkedOf(answer, all), [], 0);
}
