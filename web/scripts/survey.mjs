// The verdict on one of many files, of which nothing else is kept.
import { Side } from './side.mjs';

/** The verdict on a file, its sums, and what a reader should know beside it. */
export async function surveyed(erd, file, prefer, converted) {
    const side = new Side(file, 0, converted);
    await side.open(() => {});
    if (side.outcome === null) {
        side.judge(erd, prefer, () => {});
    }
    if (await side.takeForm(() => {})) {
        side.judge(erd, prefer, () => {});
    }
    const { size, outcome, faults, converted: known = null } = side.told();
    const { repeated = [], envelope = {}, isTest = false } = side.facts();
    return { size, outcome, faults, converted: known, repeated: repeated.length, notes: envelope.Notes ?? null, isTest, ...await side.formSums(erd, prefer, () => {}) };
}
