// The languages of the page: which one is used first, and the switch between them.
import { element } from './dom.mjs';
import { say, useTexts } from './texts.mjs';

const NAMES = { en: 'English', es: 'Español' };

/**
 * The first language that the user reads and the page has; else the one in which the page is built.
 * @param {string[]} available
 * @param {readonly string[]} wanted the languages of the browser, as BCP 47 has them
 */
export function firstLanguage(available, wanted, otherwise) {
    return wanted.map((tag) => tag.toLowerCase().split('-')[0]).find((language) => available.includes(language)) ?? otherwise;
}

/** Puts the texts of a language into the page. */
export function useLanguage(texts, language) {
    useTexts(texts[language], language);
    document.documentElement.lang = language;
    for (const node of document.querySelectorAll('[data-text]')) {
        node.textContent = say(node.dataset.text);
    }
}

/** Fills the switch, and calls `changed` with the language that is chosen. */
export function offerLanguages(select, available, language, changed) {
    select.append(...available.map((one) => element('option', { value: one, lang: one }, NAMES[one])));
    select.value = language;
    select.addEventListener('change', () => changed(select.value));
}
