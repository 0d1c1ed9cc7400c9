// Limits the memory of a WebAssembly module: `node less_memory.mjs MODULE PAGES OUTPUT`, where a page has 64 KiB.
import { readFileSync, writeFileSync } from 'node:fs';
import { fileURLToPath } from 'node:url';

const MEMORIES = 5;

/**
 * The module with a limit in its section of memories: a flag says whether there is one.
 * @param {Buffer} module
 * @param {number} pages
 */
export function withMostPages(module, pages) {
    for (let at = 8; at < module.length;) {
        const [size, start] = numberAt(module, at + 1);
        if (module[at] === MEMORIES) {
            const [least, end] = numberAt(module, start + 2);
            const section = [1, 1, ...numberOf(least), ...numberOf(pages)];
            const replaced = Buffer.from([MEMORIES, ...numberOf(section.length), ...section]);
            return Buffer.concat([module.subarray(0, at), replaced, module.subarray(end)]);
        }
        at = start + size;
    }
    throw new Error('the module has no memory');
}

// A number in seven bits a byte, and where it ends.
function numberAt(module, at) {
    let value = 0;
    for (let shift = 0; ; shift += 7) {
        value += (module[at] & 0x7f) * 2 ** shift;
        if (module[at++] < 0x80) {
            return [value, at];
        }
    }
}

function numberOf(value) {
    return value < 0x80 ? [value] : [(value & 0x7f) | 0x80, ...numberOf(value >>> 7)];
}

if (process.argv[1] === fileURLToPath(import.meta.url)) {
    const [module, pages, output] = process.argv.slice(2);
    writeFileSync(output, withMostPages(readFileSync(module), Number(pages)));
}
