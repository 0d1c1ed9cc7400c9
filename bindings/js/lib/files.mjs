// Reads and writes as the program does, with its words for what went wrong.
import { closeSync, fstatSync, openSync, readFileSync, readSync, statSync, writeSync } from 'node:fs';
import { MOST_BYTES } from './calls.mjs';

const STANDARD_INPUT = 0;
export const STANDARD_OUTPUT = 1;
export const STANDARD_ERROR = 2;
const NULL_DEVICE = '/dev/null';
const BLOCK = 1 << 20;
const MILLISECONDS = 5;

/** The command ends here, with these words on standard error and this status. */
export class Stop extends Error {
    constructor(words, status = 3) {
        super(words);
        this.status = status;
    }
}

/** Opens the files of a command, all before one of them is read. No file is standard input. */
export function opened(names) {
    return names.length === 0 ? [STANDARD_INPUT] : names.map(openedFile);
}

function openedFile(name) {
    try {
        return openSync(name, 'r');
    } catch {
        throw new Stop(`cannot open\n${name.replace(/\p{Cc}/gu, '?')}`);
    }
}

/** All bytes of an open file. */
export function bytesOfFile(handle) {
    const parts = [];
    let size = 0;
    for (;;) {
        const part = Buffer.allocUnsafe(BLOCK);
        const count = readSome(handle, part);
        if (count === 0) {
            closeSync(handle);
            return new Uint8Array(Buffer.concat(parts));
        }
        size += count;
        if (size > MOST_BYTES) {
            throw new Stop('too long');
        }
        parts.push(part.subarray(0, count));
    }
}

function readSome(handle, part) {
    try {
        return untilReady(() => readSync(handle, part));
    } catch (error) {
        // The end of a pipe on Windows.
        if (error.code === 'EOF') {
            return 0;
        }
        throw new Stop('read failed');
    }
}

/**
 * Stops if what is written here goes nowhere because it was closed. Node opens the null device in the place of a closed stream, for
 * reading and writing, before it runs the command; what a shell opens by `> /dev/null` can't be read.
 */
export function checkThere(handle) {
    if (process.platform !== 'win32' && isNullDevice(handle) && canBeRead(handle)) {
        throw new Stop('write failed');
    }
}

function isNullDevice(handle) {
    const found = fstatSync(handle);
    return found.isCharacterDevice() && found.rdev === statSync(NULL_DEVICE).rdev;
}

function canBeRead(handle) {
    try {
        readSync(handle, Buffer.alloc(1));
        return true;
    } catch {
        return false;
    }
}

/** The version of this package. */
export function versionOfPackage() {
    return JSON.parse(readFileSync(new URL('../package.json', import.meta.url), 'utf8')).version;
}

/** Writes all bytes of a text or of an array. */
export function write(handle, text) {
    let left = typeof text === 'string' ? Buffer.from(text) : text;
    while (left.length > 0) {
        left = left.subarray(writeSome(handle, left));
    }
}

function writeSome(handle, bytes) {
    try {
        return untilReady(() => writeSync(handle, bytes));
    } catch {
        throw new Stop('write failed');
    }
}

// A pipe that is not ready, such as one that a shell shares, is tried again.
function untilReady(attempt) {
    for (;;) {
        try {
            return attempt();
        } catch (error) {
            if (error.code !== 'EAGAIN') {
                throw error;
            }
            Atomics.wait(new Int32Array(new SharedArrayBuffer(4)), 0, 0, MILLISECONDS);
        }
    }
}
