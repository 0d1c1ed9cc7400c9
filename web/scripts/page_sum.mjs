// The SHA-256 of the page itself, from what the browser has read of it: the same as that of the file `erd.html`.
import { sha256 } from './digest.mjs';

const ESCAPES = { '&': '&amp;', '<': '&lt;', '>': '&gt;', '"': '&quot;', "'": '&#x27;' };

/**
 * The sum of the file that was opened. `build.py` makes the file from the same template.
 * @param {{template: string, texts: Record<string, Record<string, string>>, version: string, language: string}} data
 */
export async function sumOfPage({ template, texts, version, language }) {
    const parts = { language, version, policy: document.querySelector('meta[http-equiv]').content, style: document.querySelector('style').textContent };
    for (const [name, id] of [['tables', 'tables'], ['wasm', 'wasm'], ['examples', 'examples-data'], ['licences', 'licences-data'], ['documents', 'documents-data'],
        ['worker', 'worker'], ['script', 'script']]) {
        parts[name] = document.getElementById(id).textContent;
    }
    const text = template.replace(/\{\{(text:)?([\w.]+)\}\}/g, (_whole, isText, name) => (isText === undefined ? parts[name] : escaped(texts[language][name])));
    return sha256(new TextEncoder().encode(text));
}

function escaped(text) {
    return text.replace(/[&<>"']/g, (character) => ESCAPES[character]);
}
