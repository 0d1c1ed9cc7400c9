// What is wrong with files that are refused or not JSON. What helps to fix a refused file stands here too, a section each.
import { element, saidWith, theirs } from './dom.mjs';
import { excerptShown } from './excerpts.mjs';
import { FaultCards, fixShown } from './faults.mjs';
import { CopyMaker } from './prepare_copy.mjs';
import { whyNotConverted } from './from_xml/shown.mjs';
import { say } from './texts.mjs';

/** The sections of all files that have any. `chosen` are the files, and `takesCopies` judges others in their place. */
export async function troublesOf(files, names, client, { fixes, chosen, takesCopies }) {
    const isPair = files.length === 2 && files.every(canBePrepared);
    const sections = await Promise.all(files.map((file, index) => {
        const preparing = () => new CopyMaker(client, { index, names, files: chosen, isPair, takesCopies }).section();
        return sectionsOf(file, { index, name: names[index], client, fixes, preparing });
    }));
    return sections.flat();
}

// A report, accepted or refused, or JSON behind a byte order mark.
function canBePrepared(file) {
    const { outcome, other, trouble } = file;
    return outcome === 'accepted' || outcome === 'refused' && other === undefined
        || outcome === 'notJson' && trouble.why === 'byteOrderMark' && whyNotConverted(file) === null;
}

async function sectionsOf(file, { index, name, client, fixes, preparing }) {
    if (file.outcome === 'notJson') {
        const why = whyNotConverted(file);
        return [...(canBePrepared(file) ? [preparing()] : []), notJson(file.trouble, why, { name, index, fix: fixes['not JSON'] })];
    }
    if (file.outcome !== 'refused') {
        return [];
    }
    const isReport = file.other === undefined;
    const faults = await new FaultCards(client, fixes, { index, name, count: file.faults, isReport }).section();
    return isReport ? [preparing(), faults] : [faults];
}

function notJson({ why, line, column, excerpt }, whyNot, { name, index, fix }) {
    const heading = `not-json-${index}`;
    const where = line === undefined ? null : element('p', {}, say('notJson.where', { line: String(line), column: String(column) }));
    return element('section', { class: 'card', 'aria-labelledby': heading },
        element('h3', { id: heading }, saidWith('notJson.heading', { name: theirs(name) })),
        element('p', {}, whyNot ?? say(`notJson.${why}`)), where,
        excerpt === undefined ? null : excerptShown(excerpt, () => Promise.resolve(new Uint8Array(0))),
        fixShown(fix, false));
}
