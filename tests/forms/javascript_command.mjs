// Tries the command of the package for JavaScript on the conformance suite, in this process: `node javascript_command.mjs PACKAGE`,
// the folder of the package with its erd.wasm. It takes each case of two reports and each case with a preference, which tell
// exchanged files and a lost preference, and some files of its own; tests/forms/javascript_package.sh starts the command itself. One line
// for each case that fails; at the end stand the counts.
import fs, { existsSync, mkdtempSync, readdirSync, readFileSync, rmSync, statSync, truncateSync, writeFileSync } from 'node:fs';
import { syncBuiltinESMExports } from 'node:module';
import { tmpdir } from 'node:os';
import { join, resolve } from 'node:path';
import { pathToFileURL } from 'node:url';

const SUITE = new URL('../../out/conformance/', import.meta.url).pathname;
const COMMAND = pathToFileURL(join(resolve(process.argv[2]), 'erd.mjs'));
const MOST_BYTES = 67108864;
const STATUSES = { 'accepted\n': 0, 'same\n': 0, 'not JSON\n': 2, 'left: not JSON\n': 2, 'right: not JSON\n': 2 };
const failures = [];
let passed = 0;
let runs = 0;

// What the command writes is kept. What is named here hinders a read or a write, each once, and a write may take a part of the bytes.
// Standard output is what `output` says, if anything: whether it is a device, which one, and whether it can be read.
const { fstatSync, readSync, writeSync } = fs;
let written = [];
let output = null;
let hindrances = { read: [], write: [] };
let mostWritten = Infinity;
function hindered(way) {
    const code = hindrances[way].shift();
    if (code) {
        throw Object.assign(new Error(code), { code });
    }
}
fs.readSync = (handle, ...words) => {
    hindered('read');
    if (handle === 1 && output !== null) {
        return output.canBeRead ? 0 : readSync(-1);
    }
    return readSync(handle, ...words);
};
fs.fstatSync = (handle) => (handle === 1 && output !== null ? { isCharacterDevice: () => output.isDevice, rdev: output.rdev } : fstatSync(handle));
fs.writeSync = (handle, bytes) => {
    hindered('write');
    const taken = Buffer.from(bytes).subarray(0, mostWritten);
    written[handle] += taken.toString();
    return taken.length;
};
syncBuiltinESMExports();

// How often something was waited for.
const { wait } = Atomics;
let waits = 0;
Atomics.wait = (...words) => {
    waits++;
    return wait(...words);
};

// The module is compiled once.
const { compile } = WebAssembly;
let module = null;
WebAssembly.compile = (bytes) => (module ??= compile(bytes));

/** The status of a run with these words, and what it wrote. The command runs as its module is loaded: each time as another one. */
async function ran(words) {
    written = ['', '', ''];
    process.argv = ['node', 'erd', ...words];
    process.exitCode = undefined;
    await import(`${COMMAND}?run=${++runs}`);
    return [process.exitCode, written[1], written[2]];
}

function said(name, isRight, why) {
    if (isRight) {
        passed++;
    } else {
        failures.push(`${name}: ${why}`);
    }
}

async function tryRun(name, words, wanted) {
    const [found, right] = [await ran(words), wanted].map((it) => JSON.stringify(it));
    said(name, found === right, `${words[0]}: ${found.slice(0, 300)} in place of ${right.slice(0, 300)}`);
}

function textOf(folder, name) {
    const file = join(folder, name);
    return existsSync(file) ? readFileSync(file, 'utf8') : null;
}

for (const name of readdirSync(SUITE)) {
    const folder = join(SUITE, name);
    const prefer = textOf(folder, 'prefer');
    const words = prefer === null ? [] : ['--prefer', prefer.replace(/\n$/, '')];
    const difference = textOf(folder, 'compare.txt');
    if (difference !== null) {
        await tryRun(name, ['compare', ...words, join(folder, 'left.json'), join(folder, 'right.json')],
            [STATUSES[difference] ?? 1, difference, '']);
        if (difference === 'same\n') {
            await tryRun(name, ['compare', '--json', ...words, join(folder, 'left.json'), join(folder, 'right.json')], [0, 'null\n', '']);
        }
        if (/^(left|right): /.test(difference)) {
            await tryRun(name, ['ballots', ...words, join(folder, 'left.json'), join(folder, 'right.json')], [STATUSES[difference] ?? 1, difference, '']);
        }
    } else if (prefer !== null) {
        const lines = textOf(folder, 'check.txt');
        const form = textOf(folder, 'canonical.json');
        const status = STATUSES[lines] ?? 1;
        const file = join(folder, 'input.json');
        await tryRun(name, ['check', ...words, file], [status, lines, '']);
        if (status === 0) {
            await tryRun(name, ['check', '--json', ...words, file], [0, '[]\n', '']);
        }
        // Why a report has no ballots is told as by a check.
        if (status !== 0) {
            await tryRun(name, ['ballots', ...words, file], [status, lines, '']);
        }
        await tryRun(name, ['canon', ...words, file], form === null ? [status, '', lines] : [0, form, '']);
    }
}

// The longest report, and one that is a byte longer: zero bytes.
const room = mkdtempSync(join(tmpdir(), 'erd-'));
const report = join(room, 'report.json');
writeFileSync(report, '');
truncateSync(report, MOST_BYTES);
await tryRun('the longest report', ['check', report], [2, 'not JSON\n', '']);
truncateSync(report, MOST_BYTES + 1);
await tryRun('a report that is too long', ['check', report], [3, '', 'too long\n']);

// Of two reports the right one has more faults than a call lists. The command writes all of them.
writeFileSync(report, JSON.stringify({ '@type': 'ElectionResults.ElectionReport', Status: 'certified', Election: [], GpUnit: Array(1500).fill(1) }));
const wrongKinds = Array.from({ length: 1500 }, (_, at) => `/GpUnit/${at}: wrong kind`);
const faults = ['/Election: wrong number of elections', ...wrongKinds, '/Status: not pre-election'];
const accepted = join(SUITE, 'canonical-one-unit', 'input.json');
await tryRun('ballots of a report with many faults', ['ballots', accepted, report], [1, faults.map((line) => `right: ${line}\n`).join(''), '']);

// So it does of a copy, and then it writes a line for each reason, of the last fault too.
const [statusOfCopy, , below] = await ran(['prepare', '--steps', 'nulls', report]);
const [linesBelow, wantedBelow] = [below.replace(/^(reason \d+) .*/gm, '$1'), [...faults, 'reason 9', 'reason 1', 'reason 8', ''].join('\n')];
said('a copy with many faults', statusOfCopy === 1 && linesBelow === wantedBelow, `${statusOfCopy} ${linesBelow.slice(-300)}`);

// Help goes to standard output, and what is said of wrong words to standard error.
for (const [words, ...wanted] of [
    [['--help'], 0, /^Puts a pre-election ballot definition /, /^$/],
    [['nosuch'], 3, /^$/, /^error: unrecognized subcommand 'nosuch'\n/],
]) {
    const [status, ...texts] = await ran(words);
    said(`the text for ${words}`, status === wanted[0] && texts.every((text, at) => wanted[at + 1].test(text)), `${status} ${texts.join('|').slice(0, 300)}`);
}

// An answer as JSON is a line, with the status that its lines have.
const NAMELESS = '[{"name":"@type","place":[],"reason":2}]';
for (const [text, words, wanted] of [
    ['{}', ['check', '--json', accepted], [0, '[]\n', '']],
    ['{}', ['check', '--json', report], [1, `${NAMELESS}\n`, '']],
    ['{', ['check', '--json', report], [2, '"not JSON"\n', '']],
    ['{}', ['compare', '--json', accepted, accepted], [0, 'null\n', '']],
    ['{}', ['ballots', '--json', accepted, report], [1, `{"faults":${NAMELESS},"refused":"right"}\n`, '']],
]) {
    writeFileSync(report, text);
    await tryRun(`as JSON: ${words.length} words, ${text}`, words, wanted);
}

// Node opens the null device, for reading too, in the place of an output that was closed before. A form would be lost there.
const NULL_DEVICE = statSync('/dev/null').rdev;
const [LOST, FORM] = [[3, '', 'write failed\n'], [0, textOf(join(SUITE, 'canonical-one-unit'), 'canonical.json'), '']];
for (const [name, isDevice, rdev, canBeRead, wanted] of [
    ['an output that was closed', true, NULL_DEVICE, true, LOST], ['the null device of a shell', true, NULL_DEVICE, false, FORM],
    ['a terminal', true, NULL_DEVICE + 1, true, FORM], ['a socket', false, NULL_DEVICE, true, FORM],
]) {
    output = { isDevice, rdev, canBeRead };
    await tryRun(`a form for ${name}`, ['canon', accepted], wanted);
    await tryRun(`a verdict for ${name}`, ['check', accepted], [0, 'accepted\n', '']);
}
output = null;

// Pipes that are not ready, the end of a pipe on Windows, and what fails. The file is read at once, and a second read finds its end.
for (const [name, read, write, wanted] of [
    ['a pipe that is not ready', ['EAGAIN', 'EAGAIN', '', 'EAGAIN'], [], [0, 'accepted\n', '']],
    ['the end of a pipe on Windows', ['', 'EOF'], [], [0, 'accepted\n', '']],
    ['a read that fails', ['', 'EIO'], [], [3, '', 'read failed\n']],
    ['an output that is not ready', [], ['EAGAIN', 'EAGAIN'], [0, 'accepted\n', '']],
    ['a write that fails', [], ['EIO'], [3, '', 'write failed\n']],
]) {
    hindrances = { read, write };
    await tryRun(name, ['check', accepted], wanted);
}
said('what is not ready is waited for', waits === 5, `${waits} times`);
mostWritten = 4;
await tryRun('an output that takes a part at a time', ['check', accepted], [0, 'accepted\n', '']);
mostWritten = Infinity;

// The report on steps tells of a step that was not done.
writeFileSync(report, '{"Notes":null}');
const [status, told] = await ran(['prepare', '--report', '--steps', 'codes', report]);
const [{ step, done, count } = {}] = status === 0 ? JSON.parse(told) : [];
said('the report on steps that were not done', step === 'nulls' && done === false && count === 1, `${status} ${told.slice(0, 300)}`);
rmSync(room, { recursive: true });

writeSync(1, failures.map((failure) => `FAILED  ${failure}\n`).join('') + `${passed} passed, ${failures.length} failed\n`);
process.exitCode = failures.length === 0 ? 0 : 1;
