// A caller of the package whose types are checked: each result and each option once.
import { Canonical, Checked, Compared, Difference, Differences, Erd, Fault, Json, load, MOST_BYTES, NoMemoryError, SelectionDifference, SelectionName, TooLongError, TrapError } from 'erd';

const erd: Erd = await load(new Uint8Array(MOST_BYTES));
const checked: Checked = erd.check('{}', { prefer: 'fips' });
const faults: Fault[] = checked.faults;
const steps: (string | number)[] = faults[0].place;
const name: string | undefined = faults[0].name;
const canonical: Canonical = erd.canonical(new ArrayBuffer(1));
const bytes: Uint8Array | null = canonical.bytes;
const compared: Compared = erd.compare(new Uint8Array(1), '', { prefer: null });
const difference: Difference | null = compared.difference;
const all: Differences = erd.differences('', '', { prefer: 'fips', mostDifferences: null });
const counts: number[] = [erd.check('', { mostFaults: 5 }).allFaults, all.allDifferences, all.differences.length];
const values: (Json | undefined)[] = [all.differences[0].values?.left, all.differences[0].values?.right];
const inside: SelectionDifference[] = all.differences[0].selections ?? [];
const selection: SelectionName = inside[0].name;
const order: number | bigint | null = selection[3];
const more: boolean = all.more || checked.more || compared.more;
const { request } = erd.commandLine(['check', 'a.json']);
const files: string[] = request?.files ?? [];
const pieces: Uint8Array[] = [...erd.written('differences', ['', ''])].map((piece) => piece.bytes);
const taken: number[] = [...erd.written('check', [''], {}, (some, outcome) => some.length + outcome)].map((piece) => piece.bytes);
const results: boolean[] = [...erd.checkedByPieces('', { prefer: 'fips' })].map(({ accepted }) => accepted);
const side: 'left' | 'right' | null = compared.side;
const text: string = checked.text + canonical.text + compared.text;
const errors: Error[] = [new TooLongError(), new NoMemoryError(), new TrapError()];
// @ts-expect-error: a number is no report
erd.check(5);
// @ts-expect-error: there is no such option
erd.check('', { preferred: 'fips' });
// What may be null is not used before that is known.
// @ts-expect-error: a refused report has no canonical form
canonical.bytes.length;
// @ts-expect-error: two reports may be the same
compared.difference.line;
// @ts-expect-error: no side may be refused
compared.side.length;
// @ts-expect-error: an object may have no key
all.differences[0].key.length;
// @ts-expect-error: values may be too long
all.differences[0].values.left;
// @ts-expect-error: a style may have no key, and the election of a ballot too
[erd.ballots('').ballots[0].key.length];
// @ts-expect-error: a report may have no such ballot
erd.ballot('', 0).ballot.lines;
// @ts-expect-error: a report may have no such ballots
erd.ballotsBeside('', '', 0, 0).ballots.rows;
// @ts-expect-error: no copy is made of what is no report
erd.prepared('', '').bytes;
export { bytes, counts, difference, errors, files, more, order, pieces, name, results, side, steps, taken, text, values };

import { comparePrepared, Copy, lineOfRemedy, Preparation, remedyOf, stepsOf, told } from 'erd/prepare';

const prepared = new Preparation(new Uint8Array(), erd).prepare(stepsOf('removed'), { tellsOthers: true });
const copies: { left: Copy; right: Copy } = comparePrepared(new Uint8Array(), new Uint8Array(), stepsOf('removed'), erd, { prefer: 'fips' });
const letters: string[] = [remedyOf(8).letter, ...remedyOf(8).steps, lineOfRemedy(8)];
const lengths: number[] = [prepared.bytes.length, letters.length, ...prepared.steps.map((step) => told(step).changes.length)];
const positions: number[] = erd.ballots('').ballots.map((ballot) => ballot.position);
const election: string | null = erd.ballot('', 0).ballot?.election?.[2] ?? null;
const depths: number[] = erd.ballot('', 0)?.ballot?.lines.map((line) => line.depth) ?? [];
const printed: ['unit' | 'party' | 'person' | 'office' | 'header' | 'election' | 'candidate' | 'contest', string | undefined][] =
    erd.words('', { mostEntries: 1 }).entries.map((entry) => [entry.part, entry.selections?.[0]?.name[0]]);
const ways: ('only left' | 'only right' | 'differs')[] = erd.ballotDifferences('', '').differences.map((ballot) => ballot.how);
const rows: [string, number | null, string[]][] = (erd.ballotsBeside('', '', 0, 0).ballots?.rows ?? [])
    .map((row) => [row.how, row.left, row.selections.map((selection) => selection.name[0])]);
// @ts-expect-error no such group
stepsOf('none');
