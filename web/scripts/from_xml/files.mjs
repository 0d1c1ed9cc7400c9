// In the page: a file in XML is converted before it is judged, once.
import { encodingOf, MOST_OF_BEGINNING } from './decoding.mjs';
import { formOf, whyNot } from './form.mjs';
import { MOST_BYTES } from './frame.mjs';
import { readXml } from './reading.mjs';

// What is known of each file that has been read.
const KNOWN = new WeakMap();

/**
 * The file that is judged in place of a file: its JSON form, if it is XML. `converted` says what is known of that, or why there is no form;
 * it is null if the file does not begin as XML.
 * @param {File} file
 * @param {(done: number) => void} told is called after each part of the file; what it throws ends the reading
 * @returns {Promise<{file: File, converted: import('./form.mjs').Conversion | {why: string, values: object} | null}>}
 */
export async function judgedFile(file, told) {
    if (!KNOWN.has(file)) {
        KNOWN.set(file, await read(file, told));
    }
    return KNOWN.get(file);
}

async function read(file, told) {
    const plain = { file, converted: null };
    try {
        if (file.size > MOST_BYTES || encodingOf(await bytesOf(file.slice(0, MOST_OF_BEGINNING))) === null) {
            return plain;
        }
        const bytes = await bytesOf(file);
        return await converted(file.name, bytes, async (done) => {
            await turn();
            told(done);
        });
    } catch (error) {
        // Who judges the file says that it can't be read.
        if (error instanceof DOMException) {
            return plain;
        }
        const converted = whyNot(error);
        return { file, converted };
    }
}

async function bytesOf(blob) {
    return new Uint8Array(await blob.arrayBuffer());
}

async function converted(name, bytes, nextTurn) {
    const { form, conversion } = await formOf(bytes, await readXml(bytes, nextTurn));
    return { file: new File([form], name, { type: 'application/json' }), converted: conversion };
}

// Lets the page do what waits, such as a click.
function turn() {
    return new Promise((resolve) => {
        const { port1, port2 } = new MessageChannel();
        port1.addEventListener('message', () => {
            port1.close();
            resolve();
        });
        port1.start();
        port2.postMessage(null);
    });
}
