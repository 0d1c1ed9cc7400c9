// One file of a judgement. What is known of it is found when it is asked for, and kept.
import { MOST_BYTES, NoMemoryError } from '../../bindings/js/lib/calls.mjs';
import { boundedPointer } from './bounded.mjs';
import { markIn } from './copy_mark.mjs';
import { repeatedNames } from '../../bindings/js/lib/repeated.mjs';
import { whyNotJson } from './diagnosis.mjs';
import { headIn } from './envelope.mjs';
import { sha256 } from './digest.mjs';
import { excerptOf, Lines } from './excerpt.mjs';
import { kindsOf } from './fault_kinds.mjs';
import { readBorn } from './from_xml/born.mjs';
import { formOf, whyNot } from './from_xml/form.mjs';
import { otherFile } from './other_file.mjs';
import { foundPlaces } from './places.mjs';
import { areBounded, wordsOf } from './report_words.mjs';
import { typesIn } from './types.mjs';

/** The reason of a file that is not from before the election. */
const NOT_PRE_ELECTION = 8;
const MOST_REPEATED = 100;

export class Side {
    /**
     * @param {Blob} file
     * @param {object | null} [converted] what is known of the conversion, if the file is the form of one in XML, or why there is none
     */
    constructor(file, index, converted = null) {
        this.file = file;
        this.index = index;
        this.converted = converted;
        this.bytes = null;
        this.outcome = null;
        this.checked = null;
    }

    /** Reads the file. `outcome` tells why it can't be judged, if it can't. */
    async open(tell) {
        if (this.bytes !== null || this.outcome !== null) {
            return;
        }
        if (this.file.size > MOST_BYTES) {
            this.outcome = 'tooLong';
            return;
        }
        try {
            this.bytes = await this.read(tell);
        } catch {
            this.outcome = 'unreadable';
        }
    }

    async read(tell) {
        const bytes = new Uint8Array(this.file.size);
        let done = 0;
        const reader = this.file.stream().getReader();
        for (let part = await reader.read(); !part.done; part = await reader.read()) {
            bytes.set(part.value, done);
            done += part.value.length;
            tell({ stage: 'reading', index: this.index, done, total: this.file.size });
        }
        return bytes.subarray(0, done);
    }

    /** Judges the file by itself. */
    judge(erd, prefer, tell) {
        tell({ stage: 'checking', index: this.index });
        const answer = unlessNoMemory(() => erd.canonical(this.bytes, { prefer }));
        if (answer === null) {
            this.outcome = 'noMemory';
        } else {
            this.take(answer);
        }
    }

    /** Takes what the proved code has answered on this file: a `Checked`, or a `Compared` that is about it. */
    take(answer) {
        this.checked = answer;
        this.outcome = answer.outcome === 'not JSON' ? 'notJson' : answer.outcome;
    }

    /** Takes the form of JSON that was made from XML in place of the file. Tells whether it is such JSON. */
    async takeForm(tell) {
        if (this.outcome !== 'refused' || this.converted !== null || !this.checked.faults.some(isWithoutClass)) {
            return false;
        }
        tell({ stage: 'converting', index: this.index });
        try {
            const converter = readBorn(this.bytes);
            if (converter === null) {
                return false;
            }
            const { form, conversion } = await formOf(this.bytes, converter);
            Object.assign(this, { bytes: form, converted: { ...conversion, isBorn: true }, outcome: null, checked: null });
            return true;
        } catch (error) {
            this.converted = whyNot(error);
            return false;
        }
    }

    /** What the page shows of the outcome. */
    told() {
        const { outcome, converted } = this;
        return {
            size: converted?.size ?? (this.bytes === null ? this.file.size : this.bytes.length),
            outcome,
            ...(converted === null ? {} : { converted }),
            ...(outcome === 'refused' ? { faults: this.checked.allFaults } : {}),
            ...(outcome === 'refused' && this.checked.faults.some(({ reason }) => reason === NOT_PRE_ELECTION)
                ? { status: foundPlaces(this.bytes, [['Status']])[0].value } : {}),
            ...(outcome === 'refused' ? { other: otherFile(this.bytes, this.checked.faults) } : {}),
            ...(outcome === 'notJson' ? { trouble: this.trouble() } : {}),
        };
    }

    get isJson() {
        return this.outcome === 'accepted' || this.outcome === 'refused';
    }

    trouble() {
        const { why, at } = whyNotJson(this.bytes);
        if (at === null) {
            return { why };
        }
        const lines = this.lines;
        return { why, line: lines.of(at), column: lines.column(at), excerpt: excerptOf(lines, at, Math.min(at + 1, this.bytes.length)) };
    }

    get kinds() {
        this.keptKinds ??= kindsOf(this.checked.faults);
        return this.keptKinds;
    }

    get lines() {
        this.keptLines ??= new Lines(this.bytes);
        return this.keptLines;
    }

    /** The canonical form; null if the file is not accepted, or if there is no memory for it. */
    canonical(erd, prefer, tell) {
        if (this.outcome !== 'accepted' || this.lacksMemory) {
            return null;
        }
        if (!this.checked?.bytes) {
            tell({ stage: 'canonical', index: this.index });
            this.checked = unlessNoMemory(() => erd.canonical(this.bytes, { prefer }));
            this.lacksMemory = this.checked === null;
        }
        return this.checked?.bytes ?? null;
    }

    /**
     * The words of the report; it has to be accepted.
     * @throws {RangeError} where they can be too long
     */
    words(erd, prefer, tell) {
        const form = this.canonical(erd, prefer, tell);
        tell({ stage: 'words', index: this.index });
        if (form === null || !areBounded(form)) {
            throw new RangeError('the words of the report can be too long');
        }
        return wordsOf(erd, this.bytes, prefer);
    }

    /** The sums of the file and of its canonical form. */
    async formSums(erd, prefer, tell) {
        if (this.bytes === null) {
            return {};
        }
        const form = this.canonical(erd, prefer, tell);
        return {
            sha256: this.converted?.sha256 ?? await sha256(this.bytes),
            ...(form === null ? {} : { canonical: { size: form.length, sha256: await sha256(form) } }),
        };
    }

    // The names that are written twice.
    repeated() {
        return repeatedNames(this.bytes, { most: MOST_REPEATED }).map(({ place, times }) => ({ pointer: boundedPointer(place), times }));
    }

    // The notes of a refused file, where they are a text.
    notes() {
        const [found] = foundPlaces(this.bytes, [['Notes']]);
        return found !== null && this.bytes[found.way.at(-1).start] === 0x22 ? found.value : undefined;
    }

    /** Whether its notes say that it is a prepared copy, the types of its identifiers, the names that are written twice, its envelope and its elections. */
    facts() {
        if (!this.isJson) {
            return {};
        }
        const head = this.outcome === 'accepted' ? headIn(this.bytes) : {};
        const notes = head.envelope === undefined ? this.notes() : head.envelope.Notes;
        return { prepared: markIn(notes), types: typesIn(this.bytes), repeated: this.repeated(), ...head };
    }
}

/** What a call answers; null if it had too little memory, or if the page itself had. */
export function unlessNoMemory(call) {
    try {
        return call();
    } catch (error) {
        if (error instanceof NoMemoryError || error instanceof RangeError) {
            return null;
        }
        throw error;
    }
}

// A fault of the report itself: it names no class.
function isWithoutClass({ place, name }) {
    return place.length === 0 && name === '@type';
}
