// What differs on the ballots of two files, each thing once with the ballots on which it is: a contest, a choice, or words. The lines of the
// proved code name the things; the words are those of both files.
import { isUnchangedLine, mergedLines, otherIdentifiers } from './ballot_changes.mjs';
import { whyAlike } from './look_alikes.mjs';
import { hasWords } from './search.mjs';
import { spokenOf } from './texts.mjs';
import { endOf, shortened } from './visible.mjs';

// A line that says what differs: docs/GUIDE.md, "What differs on a ballot". Those of selections stand below their contest.
const LINE = /^ +(changed|removed|added|moved) (parties|units|header|contest|selection) ?(.*)$/s;

/** Who gets a ballot, and the kinds of objects that they are. */
export const VOTERS = new Map([['units', 'unit'], ['parties', 'party']]);

// What a thing is about that is of no header or contest.
const OF_STYLE = { kind: 'style', subject: '' };

/** How many characters of a long text are told around what differs, and of what differs. */
const AROUND = 40;
const LONGEST = 160;

/** The most ballots of one thing that are named. */
const MOST_STYLES = 50;

export class BallotFindings {
    /** @param {import('./ballot_answers.mjs').BallotAnswers} answers */
    constructor(answers) {
        const things = new BallotThings(answers.words);
        this.found = new Map();
        const heads = answers.heads();
        this.all = heads.length;
        for (const head of heads.filter(({ mark }) => mark !== '')) {
            const found = head.mark === 'changed' ? things.of(answers.votersOf(head.key), answers.belowOf(head.key)) : [{ ...OF_STYLE, what: head.mark }];
            found.forEach((thing) => this.add(head, thing));
        }
        this.entries = [...this.found.values()].sort((one, other) => other.count - one.count);
    }

    /** How many things differ. */
    told() {
        return { count: this.entries.length };
    }

    /** Some of the things that have these words, and how many have them. */
    some({ words, from, count }) {
        const fitting = this.entries.filter((entry) => hasWords(wordsOf(entry), words));
        const told = (entry) => ({ ...entry, all: this.all, alike: whyAlike(entry.left ?? '', entry.right ?? '') });
        return { count: fitting.length, entries: fitting.slice(from, from + count).map(told) };
    }

    add({ key, code, units }, thing) {
        const name = JSON.stringify(thing);
        const entry = this.found.get(name) ?? { ...thing, count: 0, styles: [] };
        this.found.set(name, entry);
        entry.count++;
        if (entry.styles.length < MOST_STYLES) {
            entry.styles.push({ key, code, units: units.slice(0, 3) });
        }
    }
}

// What the lines of the proved code say, with words.
class BallotThings {
    constructor(sides) {
        this.sides = sides;
        this.kept = new Map();
    }

    // What differs on a ballot of both files, of the lines that say who gets it in each file and what the proved code says.
    of(voters, below) {
        const told = linesIn(below);
        const words = reworded(OF_STYLE, mergedLines(...voters));
        const others = told.filter(({ kind }) => VOTERS.has(kind) && !words.some(({ role }) => role === kind));
        const lines = told.filter(({ kind }) => !VOTERS.has(kind));
        const hasOther = otherIdentifiers(lines, ({ how, kind, key }) => `${kind} ${this.sideOf(how).words(kind, key).print}`);
        return [...words, ...others.map(() => ({ ...OF_STYLE, what: 'changed' })), ...lines.flatMap((one) => this.ofLine(one, hasOther(one)))];
    }

    // The file that has what was removed, or what has another place or was added.
    sideOf(how) {
        return how === 'removed' ? this.sides[0] : this.sides[1];
    }

    ofLine({ how, kind, key, inside }, isRenamed) {
        const about = { kind, id: key, subject: nameOf(this.sideOf(how).words(kind, key).lines, ['title']) };
        if (how !== 'changed') {
            return whatOf(how, isRenamed).map((what) => ({ ...about, what }));
        }
        const things = [...this.wordsOf(about), ...this.choices(about, inside)];
        return things.length > 0 ? things : [{ ...about, what: 'changed' }];
    }

    // Where several choices have moved, that is told of the contest.
    choices(about, inside) {
        const wordsOf = ({ how, key }) => this.sideOf(how).words(about.kind, about.id).selections.get(key);
        const hasOther = otherIdentifiers(inside, (one) => wordsOf(one).print);
        const isReordered = inside.filter(({ how }) => how === 'moved').length > 1;
        return [...(isReordered ? [{ ...about, what: 'choice.order' }] : []), ...inside.filter(({ how }) => !(how === 'moved' && isReordered))
            .flatMap((one) => whatOf(one.how, hasOther(one)).map((what) => ({ ...about, what: `choice.${what}`, choice: choiceOf(wordsOf(one).lines) })))];
    }

    // The words of a header or a contest that differ, and those of its choices. Many ballots have the same one.
    wordsOf(about) {
        const name = `${about.kind} ${about.id}`;
        if (!this.kept.has(name)) {
            const [one, other] = this.sides.map((side) => side.words(about.kind, about.id));
            const both = [...one.selections ?? []].filter(([key]) => other.selections.has(key));
            this.kept.set(name, [...reworded(about, mergedLines(one.lines, other.lines)), ...both.flatMap(([key, { lines }]) => {
                const { lines: others } = other.selections.get(key);
                return reworded({ ...about, choice: choiceOf(others) }, mergedLines(lines, others));
            })]);
        }
        return this.kept.get(name);
    }
}

/** The lines of the proved code, each with those of its selections. */
export function linesIn(below) {
    const told = [];
    for (const line of below.split('\n').slice(0, -1)) {
        const [, how, kind, key] = LINE.exec(line);
        (kind === 'selection' ? told.at(-1).inside : told).push({ how, kind, key, inside: [] });
    }
    return told;
}

// What has another identifier was removed and added: that is told once.
function whatOf(how, isRenamed) {
    return !isRenamed ? [how] : how === 'removed' ? ['renamed'] : [];
}

function reworded(about, lines) {
    return lines.filter((line) => !isUnchangedLine(line)).map(({ role, texts }) => {
        const [left, right] = passagesOf(texts);
        return { ...about, what: 'choice' in about ? 'choice.words' : 'words', role, left, right };
    });
}

function choiceOf(lines) {
    return nameOf(lines, ['name', 'writeIn']);
}

function nameOf(lines, roles) {
    return lines.filter(({ role }) => roles.includes(role)).map(({ label }) => spokenOf(label)?.text ?? '').join(' + ');
}

// Of the first text that differs the passage in which it does, in each file.
function passagesOf(texts) {
    const { pieces } = texts.find((text) => text.pieces.some(({ mark }) => mark !== ''));
    const marks = pieces.map(({ mark }) => mark !== '');
    const [first, last] = [marks.indexOf(true), marks.lastIndexOf(true)];
    const before = first === 0 ? '' : ending(pieces[first - 1].text);
    const after = last === pieces.length - 1 ? '' : shortened(pieces[last + 1].text, AROUND);
    return ['added', 'removed'].map((other) => {
        const own = pieces.slice(first, last + 1).filter(({ mark }) => mark !== other).map(({ text }) => text).join('');
        return own === '' ? '' : before + shortened(own, LONGEST) + after;
    });
}

function ending(text) {
    return text.length <= AROUND ? text : `…${endOf(text, AROUND)}`;
}

function wordsOf({ subject, choice = '', left = '', right = '', styles }) {
    return [subject, choice, left, right, ...styles.flatMap(({ code, units }) => [code, ...units])];
}
