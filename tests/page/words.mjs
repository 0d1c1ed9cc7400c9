// Tries what the page tells a person, in English and in Spanish: the words of each verdict, and those of tests/page/meanings.txt,
// written by hand from what a person has to know. They are looked for in what the page's own code says, so that texts which were
// exchanged are told here, and not taken for right because a table has them. One line for each case that fails; at the end
// stand the counts.
import { readFileSync } from 'node:fs';
import { say, useTexts } from '../../web/scripts/texts.mjs';
import { verdictOf } from '../../web/scripts/verdict.mjs';
import { counts, equal, ROOT } from './counted.mjs';

const LANGUAGES = ['en', 'es'];

// Below a case of each verdict: its tone, and for each language words that it has to have and words that it may not have.
const ONE = (outcome, faults) => ({ files: [{ outcome, faults }], comparison: null });
const TWO = (comparison) => ({ files: [{ outcome: 'accepted' }, { outcome: 'accepted' }], comparison });
const VERDICTS = {
    'an accepted file': [ONE('accepted'), 'good', /^Accepted$/, /^Aceptado$/],
    'a refused file': [ONE('refused', 1), 'bad', /^Refused: 1 fault$/, /^Rechazado: 1 error$/],
    'a file with many faults': [ONE('refused', 1200), 'bad', /^Refused: 1,200 faults$/, /^Rechazado: 1,200 errores$/],
    'no JSON': [ONE('notJson'), 'stop', /^Not JSON$/, /^No es JSON$/],
    'a file that is too long': [ONE('tooLong'), 'stop', /^Too large$/, /^Demasiado grande$/],
    'no memory for a file': [ONE('noMemory'), 'stop', /memory/, /memoria/],
    'a file that was not read': [ONE('unreadable'), 'stop', /can't be read/, /^No se puede leer/],
    'two that mean the same': [TWO({ same: true }), 'good', /two files define the same ballots$/, /dos archivos definen las mismas boletas$/],
    'two that differ': [TWO({ same: false }), 'bad', /two files do not say the same$/, /dos archivos no dicen lo mismo$/],
    'no memory for two': [TWO({ noMemory: true }), 'stop', /memory/, /memoria/],
    'two of which one is refused': [TWO(null), 'stop', /can't be compared/, /no se pueden comparar$/],
};

// ---- the words of meanings.txt

const VALUES = {
    name: 'N', size: 7, most: 9, status: 7, count: 7, all: 9, from: 7, to: 9, differing: 2, group: 'A', error: 'E', language: 'L', type: 'T', left: 'L',
    right: 'R', object: 'O', member: 'M', parts: 'P', listed: 'X', shown: 'X', changed: 'X', choice: 'C', role: 'O', subject: 'S', what: 'W', rightClass: 'Y',
    fewer: 2, steps: 'S', notes: 'N', line: 7, column: 9, command: 'C',
};

/** Each text with a meaning: its group, its key, and for each language what its words have to be. */
function meanings() {
    let group = '';
    return textOf('tests/page/meanings.txt').split('\n').filter((line) => line !== '' && !line.startsWith('#')).flatMap((line) => {
        const heading = /^\[(.*)\]$/.exec(line);
        group = heading?.[1] ?? group;
        const [key, ...words] = line.split(' | ');
        return heading ? [] : [{ group, key: group === 'page' ? key : `${group}.${key}`, words: words.map((one) => new RegExp(one)) }];
    });
}

/** The paragraphs of a page on how faults are fixed, by the keys of meanings.txt. */
function fixesOf(page) {
    const PARTS = ['meaning', 'origin', 'fixing'];
    return Object.fromEntries([...textOf(page).matchAll(/^## (not JSON|\d+)\.?(?: .*)?\n([^]*?)(?=^## |(?![^]))/gm)].flatMap(([, number, body]) => (
        [...body.matchAll(/^\*\*(?:What|Where|How|Qué|De|Cómo) [^*]*\*\* (.*)$/gm)]
            .map(([, text], at) => [`fixes.${number}.${PARTS[at]}`, text.replaceAll('`', '')]))));
}

const FIXES = ['docs/FIXES.md', 'web/fixes.es.md'].map(fixesOf);
const MEANINGS = meanings();

LANGUAGES.forEach((language, index) => {
    useTexts(JSON.parse(textOf(`web/texts.${language}.json`)), language);
    for (const [name, [answer, tone, ...words]] of Object.entries(VERDICTS)) {
        const found = verdictOf(answer);
        equal(`words, ${language}: ${name}: its tone`, found.tone, tone);
        has(`words, ${language}: ${name}`, found.title, words[index]);
    }
    const found = MEANINGS.map(({ group, key, words }) => ({
        group, key, words: words[index], text: group === 'fixes' ? FIXES[index][key] ?? '' : say(key, VALUES),
    }));
    found.forEach(({ key, text, words }) => has(`words, ${language}: ${key}`, text, words));
    // The words say which text of a group stands where: no two of them fit each other's.
    const twins = found.flatMap((one, at) => found.slice(at + 1).filter((other) => other.group === one.group && other.text !== one.text
        && one.words.test(other.text) && other.words.test(one.text)).map((other) => `${one.key} ${other.key}`));
    equal(`words, ${language}: texts that could be exchanged`, twins, []);
});
// A sentence that nobody has thought of would be held by nothing.
const told = new Set(MEANINGS.map(({ key }) => key));
equal('words: each sentence has words by hand', Object.entries(JSON.parse(textOf('web/texts.en.json')))
    .filter(([key, text]) => (text.other ?? text).endsWith('.') && !told.has(key)).map(([key]) => key), []);
equal('words: each paragraph on a fault has words', MEANINGS.filter(({ group }) => group === 'fixes').length, Object.keys(FIXES[0]).length);
counts();

function textOf(name) {
    return readFileSync(new URL(name, ROOT), 'utf8');
}

/** One case: a text has these words. */
function has(name, found, words) {
    equal(name, words.test(found) ? '' : found, '');
}
