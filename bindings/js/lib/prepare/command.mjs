// What `erd prepare` writes, as the program does.
import { bytesOfFile, checkThere, opened, STANDARD_ERROR, STANDARD_OUTPUT, Stop, write } from '../files.mjs';
import { isXml, WHERE_CONVERTED } from '../xml.mjs';
import { STEP_WORDS } from './step_words.mjs';
import { hasMark, withoutMark } from '../tree.mjs';
import { lineOfRemedy, NUMBERS } from './prepared.mjs';

const USUAL = 'removed';
const MARK_LINE = 'byte order mark: taken off\n';
const REFUSED = 1;
const NOT_JSON = 2;

/** Does what the request asks for, and returns the status. */
export function prepared(erd, { files, list, prefer, report, steps }) {
    const names = list ? '' : steps ?? USUAL;
    checkNames(erd, names);
    const given = bytesOfFile(opened(files)[0]);
    const [bytes, mark] = hasMark(given) ? [withoutMark(given), MARK_LINE] : [given, ''];
    const made = erd.prepared(bytes, names, { tellsOthers: list || report });
    if (made === null) {
        write(STANDARD_ERROR, mark + (isXml(bytes) ? `not JSON; ${WHERE_CONVERTED}\n` : 'not JSON\n'));
        return NOT_JSON;
    }
    const told = JSON.parse(new TextDecoder().decode(made.told));
    if (list || report) {
        write(STANDARD_OUTPUT, report ? made.told : told.filter(({ step }) => step !== NUMBERS).map(listed).join(''));
        write(STANDARD_OUTPUT, report ? '\n' : '');
        write(STANDARD_ERROR, mark);
        return 0;
    }
    checkThere(STANDARD_OUTPUT);
    write(STANDARD_OUTPUT, made.bytes);
    write(STANDARD_ERROR, mark + told.map((done) => `${done.step}: ${counts(done)}\n`).join(''));
    return judged(erd, made.bytes, prefer);
}

// Stops where a word names nothing, before any file is opened.
function checkNames(erd, names) {
    try {
        erd.prepared('{}', names);
    } catch (error) {
        throw error instanceof RangeError ? new Stop(error.message) : error;
    }
}

function listed(done) {
    return `${done.step} (${STEP_WORDS[done.step][0]}): ${counts(done)}\n`;
}

function counts({ count, left_count: left }) {
    return [[count, 'changed'], [left, 'left']].filter(([many]) => many > 0).map((words) => words.join(' ')).join(', ');
}

// Judges the copy, which is written by now. If it is refused, writes why, and then a line for each reason: what may fix its faults.
function judged(erd, bytes, prefer) {
    const reasons = new Set();
    for (const found of erd.checkedByPieces(bytes, { prefer })) {
        if (found.accepted) {
            return 0;
        }
        write(STANDARD_ERROR, found.text);
        found.faults.forEach(({ reason }) => reasons.add(reason));
    }
    write(STANDARD_ERROR, [...reasons].map((reason) => `${lineOfRemedy(reason)}\n`).join(''));
    return REFUSED;
}
