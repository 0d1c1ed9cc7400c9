// Checks a report, or compares two: `erd_call.mjs FILE` or `erd_call.mjs LEFT RIGHT`. Writes the text and ends with the status, as
// the program erd does.
import { readFile } from 'node:fs/promises';
import { load } from 'erd';

const STATUS = { accepted: 0, same: 0, refused: 1, different: 1, 'not JSON': 2 };

const names = process.argv.slice(2);
if (names.length !== 1 && names.length !== 2) {
    console.error('usage: erd_call.mjs FILE, or erd_call.mjs LEFT RIGHT');
    process.exit(3);
}
const erd = await load();
const reports = await Promise.all(names.map((name) => readFile(name)));
const result = reports.length === 1 ? erd.check(...reports) : erd.compare(...reports);
process.stdout.write(result.text);
process.exitCode = STATUS[result.outcome];
