// The texts of the page, from one table. `web/texts.en.json` is the table in English.

// How numbers are written: as in the United States, in each language.
const LOCALES = { en: 'en-US', es: 'es-US' };

let table = {};
let spoken = 'en';
let plurals = new Intl.PluralRules('en');
let numbers = new Intl.NumberFormat('en');
let languages = new Intl.DisplayNames(['en'], { type: 'language', fallback: 'none' });
let collator = new Intl.Collator('en', { numeric: true });

/** Takes a table of texts, and the language that it is in. */
export function useTexts(texts, language) {
    table = texts;
    spoken = language;
    plurals = new Intl.PluralRules(language);
    numbers = new Intl.NumberFormat(LOCALES[language] ?? language);
    languages = new Intl.DisplayNames([language], { type: 'language', fallback: 'none' });
    collator = new Intl.Collator(language, { numeric: true });
}

/** What a language is called, with its tag; a tag that no language has is itself. */
export function languageText(tag) {
    let name;
    try {
        name = languages.of(tag);
    } catch {
        name = undefined;
    }
    return name === undefined ? tag : `${name} (${tag})`;
}

/** Of texts in several languages the one in the language of the page, or else the first. */
export function spokenOf(texts) {
    return texts.find(({ lang }) => lang.toLowerCase().split('-')[0] === spoken) ?? texts[0];
}

/** The order in which the language of the page has two texts. */
export function orderForReader(left, right) {
    return collator.compare(left, right);
}

/**
 * A text of the table. A text may have a form for each plural of the language: `count` chooses it.
 * @param {string} key
 * @param {Record<string, string | number>} [values] what stands in place of the names in braces
 */
export function say(key, values = {}) {
    const text = sayIfKnown(key, values);
    if (text === undefined) {
        throw new RangeError(`no text has the key ${key}`);
    }
    return text;
}

/** The text, or undefined if the table has none. */
export function sayIfKnown(key, values = {}) {
    const entry = Object.hasOwn(table, key) ? table[key] : undefined;
    const text = typeof entry === 'object' ? entry[plurals.select(values.count)] ?? entry.other : entry;
    return text?.replace(/\{(\w+)\}/g, (whole, name) => (name in values ? shown(values[name]) : whole));
}

/** A number as the language writes it. */
export function numberText(number) {
    return numbers.format(number);
}

function shown(value) {
    return typeof value === 'number' ? numbers.format(value) : value;
}
