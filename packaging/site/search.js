// Searches the sections of all pages for the words of the box, with no server. `sections` comes from sections.js: of each the page with its
// title, the anchor, the heading, the text, and the weight of the page: those for users count more than those for contributors.
const box = document.querySelector('input[name=words]');
const list = document.querySelector('#found');
const count = document.querySelector('#count');
const MOST = 50;
const AROUND = 80;

// What people ask, and the words of these pages for it.
const ALSO = {
    invalid: ['refused', 'accepted'], valid: ['accepted'], rejected: ['refused'], reject: ['refused'], error: ['fault'], errors: ['fault'], wrong: ['fault'],
    fails: ['refused'], diff: ['differences'], identical: ['same'], equal: ['same'], ram: ['memory'], slow: ['time'], speed: ['time'], fast: ['time'],
    macos: ['mac'], osx: ['mac'], apple: ['mac'], broken: ['refused'], download: ['release'], hack: ['untrusted'], malicious: ['untrusted'], virus: ['untrusted'],
    proof: ['proved'], prove: ['proved'], verified: ['proved'], repair: ['fix'], mend: ['fix'], bom: ['byte order mark'], rest: ['json'],
};

// Words of a question that say nothing of what is asked.
const FILLERS = new Set(('a an and are be been can contain contains did do does for from get has have hold holds how i in is it its me my of on or our '
    + 'should tell that the there this to was we were what when where which who why will with would you your').split(' '));

/** The words that are asked for: those of the box without fillers, or all if it has nothing else. */
function asked() {
    const words = box.value.toLowerCase().split(/[\s?!.,]+/).filter(Boolean);
    const told = words.filter((word) => !FILLERS.has(word));
    return told.length > 0 ? told : words;
}

/** What a section may have in place of a word: other words for it, and the word without the ending of several. */
function others(word) {
    return [...(ALSO[word] ?? []), ...(word.length > 3 && word.endsWith('s') ? [word.slice(0, -1)] : [])];
}

/** How well a text has a word: 0 where it lacks it, and the most where it stands alone. */
function measure(text, word) {
    const at = text.indexOf(word);
    if (at < 0) return 0;
    const whole = new RegExp(`(^|[^\\p{L}\\p{N}])${word.replace(/[.*+?^${}()|[\]\\]/g, '\\$&')}($|[^\\p{L}\\p{N}])`, 'u');
    const front = new RegExp(`(^|[^\\p{L}\\p{N}])${word.replace(/[.*+?^${}()|[\]\\]/g, '\\$&')}`, 'u');
    return whole.test(text) ? 6 : front.test(text) ? 3 : 1;
}

/** How well a section has one of the words that people ask: in its heading, in the title of its page, or in its text. */
function worthOf(section, word) {
    const best = (text, most) => Math.max(measure(text, word), ...others(word).map((other) => measure(text, other) * 0.8)) * most;
    return Math.max(best(section.heading.toLowerCase(), 8), best(section.title.toLowerCase(), 5), best(section.text.toLowerCase(), 1));
}

/** How well a section has all of the words: 0 where one is missing. */
function worth(section, words) {
    const each = words.map((word) => worthOf(section, word));
    return each.some((one) => one === 0) ? 0 : section.weight * each.reduce((sum, one) => sum + one, 0);
}

/** A part of the text around the first of the words, with each of them marked. */
function excerpt(text, words) {
    const lower = text.toLowerCase();
    const first = Math.max(0, Math.min(...words.map((word) => lower.indexOf(word)).filter((at) => at >= 0)) - AROUND);
    const part = text.slice(first === Infinity ? 0 : first, (first === Infinity ? 0 : first) + 3 * AROUND);
    const made = document.createElement('div');
    let at = 0;
    while (at < part.length) {
        const rest = part.toLowerCase().slice(at);
        const next = words.map((word) => [rest.indexOf(word), word.length]).filter(([place]) => place >= 0).sort((one, other) => one[0] - other[0])[0];
        if (!next) break;
        made.append(part.slice(at, at + next[0]));
        const mark = document.createElement('mark');
        mark.textContent = part.slice(at + next[0], at + next[0] + next[1]);
        made.append(mark);
        at += next[0] + next[1];
    }
    made.append(part.slice(at));
    return made;
}

function search() {
    const words = asked();
    const found = words.length === 0 ? [] : sections.map((section) => [worth(section, words), section]).filter(([value]) => value > 0)
        .sort((one, other) => other[0] - one[0]).map(([, section]) => section);
    const marked = words.flatMap((word) => [word, ...others(word)]);
    list.replaceChildren(...found.slice(0, MOST).map((section) => {
        const item = document.createElement('li');
        const link = document.createElement('a');
        item.className = 'found';
        link.href = section.page + (section.anchor ? '#' + section.anchor : '');
        link.textContent = section.heading ? `${section.title}: ${section.heading}` : section.title;
        item.append(link, excerpt(section.text, marked));
        return item;
    }));
    count.textContent = words.length === 0 ? '' : found.length === 0 ? 'Nothing has all of these words.'
        : found.length > MOST ? `${found.length} sections, of which the first ${MOST} stand here:` : `${found.length} sections:`;
}

box.value = new URLSearchParams(location.search).get('words') ?? '';
box.addEventListener('input', search);
document.querySelector('form').addEventListener('submit', (event) => { event.preventDefault(); search(); });
search();
