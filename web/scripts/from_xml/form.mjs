// The JSON form of a report that was converted, and what is known of it.
import { sha256 } from '../digest.mjs';
import { MOST_BYTES, NotXml } from './frame.mjs';

/**
 * What is known of a report that was converted: the size and the sum of the file, those of its JSON form, and what was not understood,
 * of which at most a thousand places are told.
 * @typedef {{size: number, sha256: string, form: {size: number, sha256: string}, version: number,
 *     told: import('./converting.mjs').Told[], allTold: number}} Conversion
 */

/**
 * The form that a converter has made of a file.
 * @param {Uint8Array} bytes of the file
 * @param {import('./converting.mjs').Converter} converter
 * @returns {Promise<{form: Uint8Array, conversion: Conversion}>}
 * @throws {NotXml} if the form is too long
 */
export async function formOf(bytes, converter) {
    const form = new TextEncoder().encode(converter.text);
    if (form.length > MOST_BYTES) {
        throw new NotXml('tooLong');
    }
    const { version, told, allTold } = converter;
    const conversion = { size: bytes.length, sha256: await sha256(bytes), form: { size: form.length, sha256: await sha256(form) }, version, told, allTold };
    return { form, conversion };
}

/** Why a file is not converted: the key of a text and its values. An error of another kind is thrown again. */
export function whyNot(error) {
    if (error instanceof NotXml) {
        return { why: error.why, values: error.values };
    }
    // The engine throws it where a text or an array has no room.
    if (error instanceof RangeError) {
        return { why: 'noMemory', values: {} };
    }
    throw error;
}
