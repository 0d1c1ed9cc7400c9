// Tries which files are judged after each way to choose them: by a dialogue, by dropping them, as a folder, as an example. One line
// for each case that fails; at the end stand the counts.
import { readFileSync } from 'node:fs';
import { byId } from './elements.mjs';
import { Choice } from '../../web/scripts/choice.mjs';
import { EXAMPLES, filesOfExample } from '../../web/scripts/examples.mjs';
import { counts, equal, ROOT } from './counted.mjs';

globalThis.document.body = { classList: { toggle() {} } };
globalThis.addEventListener = () => {};
const fileOf = (name) => new File(['x'], name);
const [A, B, C] = ['a.json', 'b.json', 'c.txt'].map(fileOf);
const inFolder = (file) => ({ file, name: `f/${file.name}`, isLeftOut: file === C });

/** What is told after these calls on a choice: the files that are judged, or those of a table. */
function told(...calls) {
    const said = [];
    const choice = new Choice({}, { changed: () => said.push(choice.files.map(({ name }) => name).join(' ')),
        many: (files) => said.push(`table: ${files.map(({ name, isLeftOut }) => name + (isLeftOut ? ' left out' : '')).join(' ')}`) });
    choice.fold = () => {};
    choice.focus = () => {};
    calls.forEach((call) => call(choice));
    return said;
}

const chosen = (side, ...files) => (choice) => choice.choose(side, files);
const dropped = (slot, ...files) => (choice) => choice.dropped(slot, files);
const taken = (...files) => (choice) => choice.takeMany(files);
equal('one file, and the other one', told(chosen(0, A), chosen(1, B)), ['a.json', 'a.json b.json']);
equal('another first file', told(chosen(0, A), chosen(1, B), chosen(0, C)), ['a.json', 'a.json b.json', 'c.txt b.json']);
equal('two files at once', told(chosen(1, A, B)), ['a.json b.json']);
equal('three files at once', told(chosen(0, A, B, C)), ['table: a.json b.json c.txt']);
equal('no file is chosen', told(chosen(0)), []);
equal('the first file is removed', told(chosen(0, A, B), (choice) => choice.remove(0)), ['a.json b.json', 'b.json']);
equal('the second file is removed', told(chosen(0, A, B), (choice) => choice.remove(1)), ['a.json b.json', 'a.json']);
equal('a file is dropped beside one', told(chosen(0, A), dropped(null, B)), ['a.json', 'a.json b.json']);
equal('a file is dropped on the first one', told(chosen(0, A, B), dropped(0, C)), ['a.json b.json', 'c.txt b.json']);
equal('a file is dropped beside two', told(chosen(0, A, B), dropped(null, C)), ['a.json b.json', 'c.txt']);
equal('which are no longer chosen', byId('files-message').textContent, 'What was chosen before is no longer chosen: a.json, b.json');
equal('a folder of two', told(taken(inFolder(A), inFolder(B))), ['a.json b.json']);
equal('a folder of one', told(taken(inFolder(A))), ['a.json']);
equal('a folder of two, one of which is left out', told(taken(inFolder(A), inFolder(C))), ['table: f/a.json f/c.txt left out']);
equal('a folder of three', told(taken(inFolder(A), inFolder(B), inFolder(A))), ['table: f/a.json f/b.json f/a.json']);
equal('an empty folder', [told(taken()), byId('files-message').textContent], [[], 'There is no file in it.']);
equal('a copy in place of the second file', told(chosen(0, A, B), (choice) => choice.exchange([A, C])), ['a.json b.json', 'a.json c.txt']);
equal('a copy in place of the first file', told(chosen(0, A, B), (choice) => choice.exchange([C, B])), ['a.json b.json', 'c.txt b.json']);
equal('two files of a table', told((choice) => choice.pair([B, A])), ['b.json a.json']);

// The examples: each of them has other files.
const texts = { 'county.vendor-a.json': '{}', 'county.vendor-b.json': '{}' };
equal('the files of the examples', EXAMPLES.map(({ name }) => [name, ...filesOfExample(name, texts).map((file) => file.name)].join(' ')), [
    'same county.vendor-a.json county.vendor-b.json', 'different county.vendor-a.json county.vendor-b.changed.json', 'faulty county.vendor-a.faulty.json']);

// What is changed in an example is in the file: a name, a number and an order, or three mistakes, and nothing else.
const whole = Object.fromEntries(['a', 'b'].map((one) => `county.vendor-${one}.json`)
    .map((name) => [name, readFileSync(new URL(`examples/${name}`, ROOT), 'utf8')]));
const [, differing] = await Promise.all(filesOfExample('different', whole).map((file) => file.text()));
const [faulty] = await Promise.all(filesOfExample('faulty', whole).map((file) => file.text()));
const words = (text) => text.match(/"[^"]*"|[\d.]+/g);
const changed = (before, after) => words(after).filter((one, at) => one !== words(before)[at]);
equal('an example that differs', changed(whole['county.vendor-b.json'], differing), ['"Ingrid Sablewood"', '2', '"_516"', '"_841"']);
equal('an example with faults', changed(whole['county.vendor-a.json'], faulty), ['"pty-9"', '"per-001"', '"sel-0101"']);
equal('both are JSON', [differing, faulty].map((text) => typeof JSON.parse(text)), ['object', 'object']);
equal('the files of an example as they are', await Promise.all(filesOfExample('same', whole).map((file) => file.text())), Object.values(whole));
counts();
