// What the build has put into the page, compressed: the proved code, the worker, the tables of texts, the examples, and what can be read at
// the foot.

// Ends the modules that the worker has too, which stand first in the script of the page: build.py writes the line.
const SHARED = '// the worker has what stands above\n';

/** All of it but what stands at the foot, unpacked. The worker is a text. */
export async function embedded() {
    const [wasm, worker, tables, examples] = await Promise.all(['wasm', 'worker', 'tables', 'examples-data'].map(unpacked));
    return { ...JSON.parse(textOf(tables)), wasm, worker: sharedModules() + textOf(worker), examples: JSON.parse(textOf(examples)) };
}

function sharedModules() {
    const script = document.getElementById('script').textContent;
    return script.slice(0, script.indexOf(SHARED));
}

/** Unpacks the licences when somebody opens them. */
export function offerLicences(details) {
    details.addEventListener('toggle', async () => {
        details.querySelector('pre').textContent = textOf(await unpacked('licences-data'));
    }, { once: true });
}

/** A page of the documentation that the build has put in: `profile` or `letter`. */
export async function documentText(name) {
    return JSON.parse(textOf(await unpacked('documents-data')))[name];
}

function textOf(bytes) {
    return new TextDecoder().decode(bytes);
}

async function unpacked(id) {
    const bytes = bytesIn(document.getElementById(id).textContent.trim());
    const stream = new Blob([bytes]).stream().pipeThrough(new DecompressionStream('gzip'));
    return new Uint8Array(await new Response(stream).arrayBuffer());
}

// The digits of base 85: five of them stand for four bytes, and fewer at the end for one byte less than there are digits.
const DIGITS = '0123456789ABCDEFGHIJKLMNOPQRSTUVWXYZabcdefghijklmnopqrstuvwxyz!#$%,()*+-;.=:?@^_/{|}~';

function bytesIn(text) {
    const values = new Uint8Array(128);
    [...DIGITS].forEach((digit, value) => (values[digit.charCodeAt(0)] = value));
    const bytes = new DataView(new ArrayBuffer(Math.ceil(text.length / 5) * 4));
    for (let at = 0; at < text.length; at += 5) {
        let number = 0;
        for (let next = at; next < at + 5; next++) {
            number = number * DIGITS.length + (next < text.length ? values[text.charCodeAt(next)] : DIGITS.length - 1);
        }
        bytes.setUint32(at / 5 * 4, number);
    }
    return new Uint8Array(bytes.buffer, 0, Math.floor(text.length / 5 * 4));
}
