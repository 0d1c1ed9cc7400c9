// The worked examples: the ballots of one county as two vendors write them, and small changes of these files.

const ONE = 'county.vendor-a.json';
const OTHER = 'county.vendor-b.json';

/** Each example, and the files that it puts in. */
export const EXAMPLES = [
    { name: 'same', files: (texts) => [whole(texts, ONE), whole(texts, OTHER)] },
    { name: 'different', files: (texts) => [whole(texts, ONE), changed(texts, OTHER, 'changed', CHANGES)] },
    { name: 'faulty', files: (texts) => [changed(texts, ONE, 'faulty', FAULTS)] },
];

// A name misspelled, a number changed, and two selections exchanged on a ballot.
const CHANGES = [
    ['Ingrith Sablewood', 'Ingrid Sablewood'],
    ['"VotesAllowed":1', '"VotesAllowed":2'],
    ['["_841","_516","_616","_179","_760"]', '["_516","_841","_616","_179","_760"]'],
];

// A reference to nothing, one to a person in place of a party, and a ballot that lists a selection of another contest.
const FAULTS = [
    ['"PartyId": "pty-1"', '"PartyId": "pty-9"'],
    ['"PartyId": "pty-2"', '"PartyId": "per-001"'],
    ['["sel-1002", "sel-1001", "sel-1003"]', '["sel-1002", "sel-1001", "sel-0101"]'],
];

/** The files of an example. */
export function filesOfExample(name, texts) {
    return EXAMPLES.find((example) => example.name === name).files(texts);
}

function whole(texts, name) {
    return new File([texts[name]], name);
}

// The file with the first place of each text replaced.
function changed(texts, name, how, changes) {
    const text = changes.reduce((before, [old, replacement]) => before.replace(old, replacement), texts[name]);
    return new File([text], name.replace('.json', `.${how}.json`));
}
