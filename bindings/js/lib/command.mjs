// What the command `erd` reads and writes: the proved code parses the words, as in the program. It writes what that writes.
import { readFileSync } from 'node:fs';
import { load } from '../index.mjs';
import { bytesOfFile, checkThere, opened, STANDARD_ERROR, STANDARD_OUTPUT, Stop, versionOfPackage, write } from './files.mjs';
import { prepared } from './prepare/command.mjs';
import { tellOfXml } from './xml.mjs';

const NOT_JSON = 2;

/** Does what the words ask for, and returns the status. */
export async function run(words) {
    checkText();
    if (words.length === 1 && words[0] === '--version') {
        write(STANDARD_OUTPUT, `erd ${versionOfPackage()}\n`);
        return 0;
    }
    const erd = await load();
    const { request, status, bytes } = erd.commandLine(words);
    if (request === undefined) {
        write(status === 0 ? STANDARD_OUTPUT : STANDARD_ERROR, bytes);
        return status;
    }
    return request.command === 'prepare' ? prepared(erd, request) : answered(erd, request);
}

/** Does what a command asks for, and returns the status. */
function answered(erd, { command, files, json, prefer }) {
    const reports = opened(files).map(bytesOfFile);
    const status = judged(erd, callFor(erd, command, reports, prefer), { reports, prefer, json });
    if (status === NOT_JSON) {
        tellOfXml(reports);
    }
    return status;
}

// Which command answers. Why a report has no ballots is written as for another command, so that no list of faults is in memory as a whole.
function callFor(erd, command, reports, prefer) {
    if (command === 'filter') {
        return 'canon';
    }
    const isAccepted = (report) => erd.check(report, { prefer, mostFaults: 0 }).accepted;
    if (command !== 'ballots' || reports.every(isAccepted)) {
        return command;
    }
    return reports.length === 1 ? 'check' : 'compare';
}

function judged(erd, name, { reports, prefer, json }) {
    if (json) {
        return erd.writtenAsJson(name, reports, { prefer }, writeLine).status;
    }
    if (name === 'ballots') {
        const found = reports.length === 1 ? erd.ballots(...reports, { prefer }) : erd.ballotDifferences(...reports, { prefer });
        write(STANDARD_OUTPUT, found.text);
        return found.status;
    }
    let status = 0;
    for (const piece of erd.written(name, reports, { prefer }, writer(name))) {
        status = piece.status;
    }
    return status;
}

function writeLine(bytes) {
    write(STANDARD_OUTPUT, bytes);
    write(STANDARD_OUTPUT, '\n');
}

// What writes an answer. The status says whether a report is accepted, and whether two mean the same; but a form is its text.
function writer(name) {
    return (bytes, outcome) => {
        if (name !== 'canon') {
            write(STANDARD_OUTPUT, bytes);
        } else if (outcome === 0) {
            checkThere(STANDARD_OUTPUT);
            write(STANDARD_OUTPUT, bytes);
        } else {
            write(STANDARD_ERROR, bytes);
        }
    };
}

/**
 * Stops if a word is no text. Node reads an argument that is not UTF-8 as another text. Linux has the bytes of all arguments in a file. On
 * Windows an argument can have half a surrogate pair.
 */
export function checkText() {
    if (process.argv.some((word) => /\p{Surrogate}/u.test(word))) {
        throw new Stop('the arguments are not text');
    }
    if (!process.argv.some((word) => word.includes('\ufffd'))) {
        return;
    }
    let bytes;
    try {
        bytes = readFileSync('/proc/self/cmdline');
    } catch {
        return;
    }
    try {
        new TextDecoder('utf-8', { fatal: true }).decode(bytes);
    } catch {
        throw new Stop('the arguments are not text');
    }
}
