// The worker: it does all that takes time, so that the page stays alive.
import { Erd } from '../../bindings/js/lib/calls.mjs';
import { Judgement } from './judging.mjs';
import { surveyed } from './survey.mjs';
import { useTexts } from './texts.mjs';

// A module of 32 bits has no more memory than this. The calls of one judgement follow each other and take as much each, so they share it:
// memory that is given up is there until the browser collects it.
const MEMORY = 2 ** 32;

let started = null;
let judgement = null;

// What a judgement is asked. Each question waits until its files are judged, since a worker may begin anew after it was ended.
const QUESTIONS = [
    'begun', 'sums', 'list', 'more', 'betterType', 'ownTypes', 'ownView', 'overview', 'precincts', 'onBallots', 'someOnBallots', 'languages', 'styles',
    'ballot', 'kinds', 'places', 'canonical', 'lines', 'firstLines', 'part', 'preparation', 'preparedCopy', 'preparedChanges',
];

const ANSWERS = {
    async start({ wasm, texts, language }) {
        useTexts(texts, language);
        const module = await WebAssembly.compile(wasm);
        started = { module, erd: new Erd(module) };
    },
    open({ files, prefer, converted }) {
        judgement = new Judgement(new Erd(started.module, MEMORY), files, prefer, converted);
    },
    verdict: (_question, tell) => judged(tell),
    survey: ({ file, prefer, converted }) => surveyed(started.erd, file, prefer, converted),
};

function judged(tell) {
    judgement.answer ??= judgement.verdict(tell);
    return judgement.answer;
}

async function answered(kind, question, tell) {
    if (QUESTIONS.includes(kind)) {
        await judged(tell);
        return judgement[kind](question, tell);
    }
    return ANSWERS[kind](question, tell);
}

// Questions are answered one after another.
let last = Promise.resolve();

addEventListener('message', ({ data: { number, kind, question } }) => {
    const tell = (progress) => postMessage({ number, progress });
    last = last.then(() => answered(kind, question, tell)).then(
        (answer) => postMessage({ number, answer }),
        (error) => postMessage({ number, error: String(error) }),
    );
});
