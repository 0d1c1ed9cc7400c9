// What WCAG 2.2 AA asks of a page, as far as a program can judge it. It is the body of a function, and returns what is wrong.
const wrong = [];
const shown = (node) => node.checkVisibility({ visibilityProperty: true, opacityProperty: false }) && node.getClientRects().length > 0;
const all = (selector) => [...document.querySelectorAll(selector)].filter(shown);
const name = (node) => [node.tagName.toLowerCase(), node.id && `#${node.id}`, node.className && `.${node.className}`,
    ' ', node.textContent.trim().slice(0, 30)].join('');
const expect = (is, why) => is || wrong.push(why);

// Structure: language, title, landmarks, headings.
expect(/^[a-z]{2}/.test(document.documentElement.lang), 'the page has no language');
expect(document.title.length > 0, 'the page has no title');
expect(document.querySelector('meta[name="viewport"]')?.content.includes('maximum-scale') !== true, 'zoom is limited');
for (const landmark of ['main', 'body > header', 'body > footer', 'h1']) {
    expect(all(landmark).length === 1, `${all(landmark).length} of ${landmark}`);
}
let level = 0;
for (const heading of all('h1, h2, h3, h4, h5, h6')) {
    const next = Number(heading.tagName[1]);
    expect(next <= level + 1, `a heading of level ${next} after one of level ${level}: ${name(heading)}`);
    expect(heading.textContent.trim() !== '', `an empty heading: ${name(heading)}`);
    level = next;
}
for (const node of all('body *')) {
    const outside = node.closest('main, header, footer, script, style');
    expect(outside !== null || node.matches('main, header, footer'), `outside of every landmark: ${name(node)}`);
}

// Identifiers, and what refers to them.
const ids = [...document.querySelectorAll('[id]')].map((node) => node.id);
ids.filter((id, index) => ids.indexOf(id) !== index).forEach((id) => wrong.push(`two elements have the id ${id}`));
for (const attribute of ['for', 'aria-labelledby', 'aria-describedby', 'aria-controls']) {
    for (const node of document.querySelectorAll(`[${attribute}]`)) {
        node.getAttribute(attribute).split(' ').forEach((id) => expect(ids.includes(id), `${attribute} names no element: ${id}`));
    }
}

// Regions, lists, tables and the live region.
all('section, [role="group"]').forEach((node) => expect(node.hasAttribute('aria-labelledby') || node.hasAttribute('aria-label'),
    `a region without a name: ${name(node)}`));
all('ul, ol').forEach((list) => expect([...list.children].every((child) => child.tagName === 'LI'),
    `a list with other children: ${name(list)}`));
all('dl').forEach((list) => expect([...list.children].every((child) => child.matches('div:has(> dt):has(> dd)')),
    `a list of terms: ${name(list)}`));
for (const table of all('table')) {
    expect(table.caption !== null && table.caption.textContent !== '', 'a table without a caption');
    expect([...table.querySelectorAll('th')].every((cell) => cell.hasAttribute('scope')), 'a heading of a table without a scope');
}
expect(document.querySelectorAll('[role="status"], [aria-live="polite"]').length === 1, 'there is not one live region');
expect(document.querySelectorAll('img:not([alt])').length === 0, 'an image without a text');
expect(document.querySelectorAll('[tabindex]:not([tabindex="0"], [tabindex="-1"]), [accesskey]').length === 0, 'an order of focus by hand');
expect(document.querySelectorAll('[aria-hidden="true"] :is(a, button, input, select, [tabindex])').length === 0, 'a hidden control');

// Controls are large enough: 24 by 24 pixels.
for (const control of all('button, select, summary, label.button')) {
    const { width, height } = control.getBoundingClientRect();
    expect(width >= 24 && height >= 24, `a control of ${Math.round(width)} by ${Math.round(height)} pixels: ${name(control)}`);
}

// What scrolls can be scrolled by keyboard.
for (const node of all('main *')) {
    const scrolls = ['auto', 'scroll'].includes(getComputedStyle(node).overflowX)
        && (node.scrollWidth > node.clientWidth || node.scrollHeight > node.clientHeight);
    expect(!scrolls || node.tabIndex >= 0 || node.matches('select, progress'), `scrolled by mouse alone: ${name(node)}`);
}

// Contrast: 4.5 for texts, 3 for large ones and for the borders of controls.
const parsed = (colour) => (colour.match(/[\d.]+/g) ?? [0, 0, 0, 0]).map(Number);
const luminance = ([red, green, blue]) => [red, green, blue].map((value) => value / 255)
    .map((value) => (value <= 0.04045 ? value / 12.92 : ((value + 0.055) / 1.055) ** 2.4))
    .reduce((sum, value, index) => sum + value * [0.2126, 0.7152, 0.0722][index], 0);
const ratio = (one, other) => {
    const [light, dark] = [luminance(one), luminance(other)].sort((left, right) => right - left);
    return (light + 0.05) / (dark + 0.05);
};
const background = (node) => {
    for (let at = node; at !== null; at = at.parentElement) {
        const colour = parsed(getComputedStyle(at).backgroundColor);
        if (colour.length === 3 || colour[3] === 1) {
            return colour;
        }
        expect(colour[3] === 0, `a background that is half seen through: ${name(at)}`);
    }
    throw new Error(`no background: ${name(node)}`);
};
const walker = document.createTreeWalker(document.body, NodeFilter.SHOW_TEXT);
const seen = new Set();
for (let node = walker.nextNode(); node !== null; node = walker.nextNode()) {
    const parent = node.parentElement;
    if (node.data.trim() === '' || seen.has(parent) || !shown(parent) || parent.closest('.visually-hidden, script, style, option')) {
        continue;
    }
    seen.add(parent);
    const style = getComputedStyle(parent);
    const size = parseFloat(style.fontSize);
    const needed = size >= 24 || (size >= 18.66 && Number(style.fontWeight) >= 700) ? 3 : 4.5;
    const found = ratio(parsed(style.color), background(parent));
    expect(found >= needed, `a contrast of ${found.toFixed(2)}, and ${needed} is needed: ${name(parent)}`);
}
for (const control of all('button, select, label.button')) {
    const style = getComputedStyle(control);
    const found = Math.max(ratio(parsed(style.borderTopColor), background(control.parentElement)),
        ratio(parsed(style.backgroundColor), background(control.parentElement)));
    expect(found >= 3, `a control whose edge has a contrast of ${found.toFixed(2)}: ${name(control)}`);
}
return [...new Set(wrong)];
