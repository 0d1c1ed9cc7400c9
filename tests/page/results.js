// The whole result as data. It is the body of a function.
const text = (node) => node?.textContent ?? null;
const texts = (selector, root) => [...root.querySelectorAll(selector)].map(text);
const every = (selector, root, read) => [...root.querySelectorAll(selector)].map(read);
const result = document.getElementById('result');
const prefer = document.getElementById('prefer');

const fixing = (node) => texts(':scope > details > p', node);
const marked = (node) => texts('mark', node).join('\n');
const table = (node) => every('.sides > tbody', node, (body) => [text(body.querySelector('th')), ...every('tr:not(:first-child)', body, (row) => texts('td', row))]);

const place = (node) => ({ trail: texts('.trail li', node), pointer: text(node.querySelector('.pointer')), name: text(node.querySelector('.place > code')), marked: marked(node) });
const card = (node) => ({
    heading: text(node.querySelector('h4')), meaning: texts(':scope > p:not(.names)', node), fixing: fixing(node), places: every('.places > li', node, place),
});
const faults = (node) => ({
    heading: text(node.querySelector('h3')), kinds: text(node.querySelector('.kinds')), cards: every('.card', node, card), buttons: texts(':scope > p > button', node),
});
const notJson = (node) => ({
    heading: text(node.querySelector('h3')), paragraphs: texts(':scope > p', node), marked: marked(node), fixing: fixing(node),
});
const inside = (node) => texts('.inside-heading, .inside > li', node);
const others = (node) => ({
    heading: text(node.querySelector('h3')),
    tallies: every('.tallies tr', node, (row) => texts('th, td', row)),
    entries: every(':scope > .differences > li', node, (entry) => [text(entry.querySelector('summary') ?? entry), ...inside(entry), ...table(entry)]),
});
const first = (node) => [text(node.querySelector('.sentence')), ...inside(node), ...table(node)];
const seen = (node) => [text(node.querySelector('h3')), texts('.left-out li', node), texts('.no-ballot li', node)];
const line = (node) => {
    const sum = node.querySelector('.sum');
    return [text(node.querySelector('dt')), ...(sum === null ? [text(node.querySelector('dd'))] : [text(sum), ...texts('.spoken code', node)])];
};
const filed = (node) => ({ headings: texts('h4', node), entries: texts('[data-filed] > ol > li', node),
    paragraphs: texts(':scope > p, :scope > .signing > p', node) });
const record = (node) => ({
    heading: text(node.querySelector('h3')), lines: every('dl > div', node, line), filed: filed(node.querySelector('.filed')),
    buttons: texts('.buttons button', node), phone: texts(':scope > p.screen:not(.buttons)', node),
});

return {
    tone: result.querySelector('.banner')?.className ?? null, sign: text(result.querySelector('.banner > .sign')),
    heading: text(result.querySelector('#verdict')), announced: text(document.getElementById('announcement')),
    notices: texts('.notice h3', result), sentences: texts('.banner > div > p, .banner > div > div > p', result),
    envelope: texts('.banner .envelope code', result), headings: texts('h3', result), seen: every('.seen', result, seen),
    faults: every('section.faults', result, faults), notJson: every('[data-part="troubles"] > section.card', result, notJson),
    first: every('[aria-labelledby="first-difference"]', result, first), others: every('section.others', result, others),
    notes: texts('[data-part="note"] > p, [data-part="differences"] > p', result),
    record: every('section.record', result, record)[0] ?? { heading: null, lines: [], buttons: [], phone: [] },
    chosen: texts('.slot .name', document),
    prefer: [document.getElementById('prefer-choice').hidden ? null : prefer.selectedOptions[0].textContent, ...texts('option', prefer)],
};
