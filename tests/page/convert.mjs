// What a test of the converter from XML runs in a browser: it leaves the converter as a function of the page.
import { readBorn } from '../../web/scripts/from_xml/born.mjs';
import { NotXml } from '../../web/scripts/from_xml/frame.mjs';
import { readXml } from '../../web/scripts/from_xml/reading.mjs';

const OPENING = new Set([...'{['].map((letter) => letter.charCodeAt(0)));

// The JSON text and what is told, or why the bytes are not converted.
async function answered(read) {
    try {
        const { text, told, allTold } = await read();
        return { text, told, allTold };
    } catch (error) {
        if (error instanceof NotXml) {
            return { why: error.why };
        }
        throw error;
    }
}

/**
 * What each of these files becomes.
 * @param {string[]} packed files in base64
 * @param {{enough?: number, block?: number}} sizes of the parts in which XML is read
 */
globalThis.convertedAll = (packed, sizes) => Promise.all(packed.map((one) => {
    const bytes = Uint8Array.from(atob(one), (letter) => letter.charCodeAt(0));
    return answered(() => (OPENING.has(bytes[0]) ? readBorn(bytes) : readXml(bytes, () => Promise.resolve(), sizes)));
}));
