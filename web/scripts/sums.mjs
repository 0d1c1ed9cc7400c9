// A sum as it is read, copied and said over the phone.
import { button, element } from './dom.mjs';
import { say } from './texts.mjs';

// The letters and digits of a code: no I, L, O or U, which look like others (Crockford's base 32).
const LETTERS = '0123456789ABCDEFGHJKMNPQRSTVWXYZ';
const BITS_OF_LETTER = 5;
const BITS_OF_CODE = 80;
const BITS_OF_DIGIT = 4;

/**
 * The code of a sum for the phone: its first 80 bits, in groups of four letters and digits.
 * @param {string} digits of SHA-256, in hexadecimal
 */
export function codeOf(digits) {
    let bits = BigInt(`0x${digits.slice(0, BITS_OF_CODE / BITS_OF_DIGIT)}`);
    let letters = '';
    for (let at = 0; at < BITS_OF_CODE / BITS_OF_LETTER; at++) {
        letters = LETTERS[Number(bits & 31n)] + letters;
        bits >>= 5n;
    }
    return letters.match(/.{4}/g).join(' ');
}

/** A sum in groups of four digits, a button that copies it, and its code for the phone. */
export function sumShown(digits, kind, isSpoken) {
    const groups = digits.match(/.{4}/g).flatMap((group) => [element('span', {}, group), element('wbr', {})]);
    const shown = element('code', { class: 'sum', 'data-sum': kind }, ...groups);
    const copied = element('span', { class: 'copied', role: 'presentation' });
    const copy = button(say('record.copy'), async () => {
        await navigator.clipboard.writeText(digits);
        copied.textContent = say('record.copied');
    }, { class: 'small screen copy', 'aria-label': say(`record.copy.${kind}`) });
    return element('span', {}, shown, ' ', copy, ' ', copied, isSpoken ? codeShown(digits) : null);
}

function codeShown(digits) {
    return element('span', { class: 'spoken' }, element('span', { class: 'label' }, say('record.code')), ' ', element('code', {}, codeOf(digits)));
}
