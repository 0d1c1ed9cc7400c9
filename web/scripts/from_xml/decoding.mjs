// The text of XML by its bytes: UTF-8 or UTF-16, as a mark before it or the first letters tell, and as its declaration agrees.
import { NotXml, shortened } from './frame.mjs';

const BLOCK = 1 << 20;
/** How many bytes of a file are looked at to see whether it begins as XML does. */
export const MOST_OF_BEGINNING = 1024;
// How many bytes a declaration has at most.
const MOST_OF_DECLARATION = 1024;
const MARKS = [[[0xef, 0xbb, 0xbf], 'utf-8'], [[0xff, 0xfe], 'utf-16le'], [[0xfe, 0xff], 'utf-16be']];
const DECLARATION = /^<\?xml[ \t\r\n][^?]*?\bencoding[ \t\r\n]*=[ \t\r\n]*(?:"([^"]*)"|'([^']*)')/;
const DECLARED = new Map([['UTF-8', ['utf-8']], ['UTF-16', ['utf-16le', 'utf-16be']], ['UTF-16LE', ['utf-16le']], ['UTF-16BE', ['utf-16be']]]);

/** The encoding of bytes that begin as XML does, and where the text begins; null if they don't. */
export function encodingOf(bytes) {
    const [mark, encoding] = MARKS.find(([beginning]) => beginning.every((byte, at) => bytes[at] === byte)) ?? [[], encodingOfLetters(bytes)];
    const text = new TextDecoder(encoding).decode(bytes.subarray(mark.length, MOST_OF_BEGINNING));
    return /^[ \t\r\n]*</.test(text) ? { encoding, start: mark.length } : null;
}

// Without a mark UTF-16 is told by the zero beside the first letter.
function encodingOfLetters([first, second]) {
    return first === 0 ? 'utf-16be' : second === 0 ? 'utf-16le' : 'utf-8';
}

/** The text of the bytes, some of them at a time. */
export function* partsOfText(bytes, { encoding, start }, block = BLOCK) {
    const decoder = new TextDecoder(encoding, { fatal: true, ignoreBOM: true });
    checkDeclared(new TextDecoder(encoding).decode(bytes.subarray(start, start + MOST_OF_DECLARATION)), encoding);
    for (let at = start; at < bytes.length; at += block) {
        yield decoded(decoder, bytes.subarray(at, at + block), at + block < bytes.length);
    }
}

function decoded(decoder, bytes, stream) {
    try {
        return decoder.decode(bytes, { stream });
    } catch {
        throw new NotXml('encoding', { encoding: decoder.encoding.toUpperCase() });
    }
}

function checkDeclared(text, encoding) {
    const found = DECLARATION.exec(text);
    const declared = found === null ? null : found[1] ?? found[2];
    const encodings = DECLARED.get(declared?.toUpperCase());
    if (declared !== null && encodings === undefined) {
        throw new NotXml('otherEncoding', { encoding: shortened(declared) });
    }
    if (encodings?.includes(encoding) === false) {
        throw new NotXml('encoding', { encoding: shortened(declared) });
    }
}
