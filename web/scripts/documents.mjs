// The pages of the documentation that are in this page, at its foot: the profile, and the letter to the vendor.
import { attempted } from './attempts.mjs';
import { button, element, save } from './dom.mjs';
import { documentText } from './embedded.mjs';
import { say } from './texts.mjs';

const FILES = { profile: 'PROFILE.md', letter: 'letter-to-the-vendor.md' };

/** Puts each page in when somebody opens it. */
export function offerDocuments() {
    for (const name of Object.keys(FILES)) {
        const details = document.getElementById(name);
        details.addEventListener('toggle', () => attempted(details, () => fill(details, name)), { once: true });
    }
}

async function fill(details, name) {
    const text = await documentText(name);
    const saved = () => save(new Blob([text], { type: 'text/markdown' }), FILES[name]);
    details.append(element('p', {}, button(say('document.save'), saved, { class: 'small', 'data-text': 'document.save' })),
        element('pre', { lang: 'en', tabindex: '0', role: 'group', 'aria-labelledby': `${name}-title` }, text));
}

/** A button that opens one of the pages. */
export function documentButton(name) {
    return button(say(`document.open.${name}`), () => {
        const details = document.getElementById(name);
        details.open = true;
        details.scrollIntoView();
        details.querySelector('summary').focus();
    }, { class: 'small screen' });
}
