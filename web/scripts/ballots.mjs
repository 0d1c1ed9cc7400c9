// The lines of what ballots have on them: of headers, contests and selections, in each language of the file. The proved code says which of
// them a ballot has, and their words; here the words are put in lines. No proof covers that.
import { textOfKey } from '../../bindings/js/lib/order.mjs';
import { say, sayIfKnown } from './texts.mjs';
import { textOfTriple } from './values.mjs';

/**
 * A label in its languages; the language of a plain text is empty.
 * @typedef {{lang: string, text: string}[]} Label
 * A line of what is printed. `own` marks words of the page.
 * @typedef {{role: string, label: Label, own?: boolean}} Line
 * The words of a header, a contest or a selection. `print` is equal for the same words. `lacking` are the languages of other titles that the
 * title of a contest has not; the empty one if its title is in no language. `selections` are those of a contest, by their names.
 * @typedef {{print: string, lines: Line[], selections?: Map<string, Words>, lacking?: string[]}} Words
 */

const TITLES = ['BallotTitle', 'Name'];

/** The statements on a contest. */
export const STATEMENTS = ['SummaryText', 'FullText', 'ProStatement', 'ConStatement', 'EffectOfAbstain', 'PassageThreshold'];

// The ways of voting in which a voter marks no number of lines.
const NO_COUNT = new Set(['rcv', 'borda', 'range']);

/** The words of the ballots of one report. */
export class BallotWords {
    /** @param {import('./report_words.mjs').ReportWords} report */
    constructor(report) {
        this.report = report;
        this.kept = new Map();
    }

    /** What tells one ballot style from another: its code, its units and its parties, of which the proved code has told the keys. */
    head({ key, units, parties }) {
        return { code: textOfTriple(key), units: this.namesOf('unit', units), parties: this.namesOf('party', parties) };
    }

    namesOf(part, keys) {
        return keys.map((key) => this.report.thing(part, key)).map(({ title, key }) => title ?? textOfTriple(key)).sort();
    }

    /** The first lines of a ballot, in the election with this key: the election, and who gets it. The only election of a file may have no key. */
    lines(head, election) {
        const { words: { Name, StartDate } } = this.report.thing('election', election);
        return [{ role: 'election', label: labelOf(Name) }, plainLine('date', StartDate), ...this.voters(head)];
    }

    /** The lines that say who gets a ballot: its units and its parties. */
    voters(head) {
        const { units, parties } = this.head(head);
        return [plainLine('units', units.join(', ')), ...(parties.length > 0 ? [plainLine('parties', parties.join(', '))] : [])];
    }

    /**
     * The words of a header or a contest. Many ballots have the same one.
     * @param {'header' | 'contest'} kind
     * @param {string} key the text of its key
     * @returns {Words}
     */
    words(kind, key) {
        const name = `${kind} ${key}`;
        if (!this.kept.has(name)) {
            const thing = this.report.of(kind).get(key);
            this.kept.set(name, kind === 'header' ? wordsOf([{ role: 'title', label: labelOf(thing.words.Name) }]) : this.contest(thing));
        }
        return this.kept.get(name);
    }

    contest({ words, selections }) {
        const own = new Map([...selections].map(([name, one]) => [name, this.selection(one)]));
        return { ...wordsOf(this.linesOfContest(words)), selections: own, lacking: this.lackingIn(titleOf(words)) };
    }

    // Which languages of the titles of contests a title is not in.
    lackingIn(title) {
        this.languages ??= [...new Set([...this.report.of('contest').values()].flatMap(({ words }) => languagesOf(titleOf(words))))].sort();
        const own = languagesOf(title);
        return own.length === 0 && this.languages.length > 0 ? [''] : this.languages.filter((language) => !own.includes(language));
    }

    linesOfContest(contest) {
        return [
            { role: 'title', label: titleOf(contest) },
            ...linesOf(contest, ['BallotSubTitle']),
            ...howToVote(contest),
            ...(contest.HasRotation === true ? [ownLine('rotation', say('ballot.rotation'))] : []),
            ...this.retained(contest),
            ...linesOf(contest, STATEMENTS),
        ];
    }

    // Who is to stay in office.
    retained({ CandidateId }) {
        return CandidateId === undefined ? [] : this.linesOfCandidate('candidate', this.report.thing('candidate', CandidateId).words);
    }

    // The name of a candidate, and what the file says of the person.
    linesOfCandidate(role, { BallotName, PersonId, IsIncumbent }) {
        const { Profession } = PersonId === undefined ? {} : this.report.thing('person', PersonId).words;
        return [
            { role, label: labelOf(BallotName) },
            ...(Profession === undefined ? [] : [{ role: 'profession', label: labelOf(Profession) }]),
            ...(IsIncumbent === true ? [ownLine('incumbent', say('ballot.incumbent'))] : []),
        ];
    }

    selection(selection) {
        const writeIn = selection.IsWriteIn === true ? [ownLine('writeIn', say('ballot.writeIn'))] : [];
        const lines = [...this.namesOfSelection(selection), ...writeIn];
        return wordsOf(lines.length > 0 ? lines : [ownLine('writeIn', say('value.noName'))]);
    }

    namesOfSelection({ CandidateIds = [], PartyIds = [], EndorsementPartyIds, Selection }) {
        const candidates = topFirst(CandidateIds.map((key) => this.report.thing('candidate', key).words));
        const parties = EndorsementPartyIds ?? candidates.map(({ PartyId }) => PartyId).filter((party) => party !== undefined);
        return [
            ...candidates.flatMap((candidate) => this.linesOfCandidate('name', candidate)),
            ...(Selection === undefined ? [] : [{ role: 'name', label: labelOf(Selection) }]),
            ...PartyIds.map((key) => this.party(key, 'name')),
            ...new Map(parties.map((key) => [textOfKey(key), this.party(key, 'party')])).values(),
        ];
    }

    party(key, role) {
        return { role, label: labelOf(this.report.thing('party', key).words.Name) };
    }
}

function wordsOf(lines) {
    return { print: JSON.stringify(lines), lines };
}

// The candidates of a selection are a set. Of a ticket, the top comes first.
function topFirst(candidates) {
    return [...candidates.filter(({ IsTopTicket }) => IsTopTicket === true), ...candidates.filter(({ IsTopTicket }) => IsTopTicket !== true)];
}

function linesOf(object, names) {
    return names.filter((name) => Object.hasOwn(object, name)).map((name) => ({ role: name, label: labelOf(object[name]) }));
}

function titleOf(contest) {
    return labelOf(contest[TITLES.find((name) => Object.hasOwn(contest, name))]);
}

function languagesOf(label) {
    return label.map(({ lang }) => lang).filter((lang) => lang !== '');
}

// How many votes a voter has, and how votes are counted. Where choices are ranked, nobody votes for so many of them.
function howToVote({ VotesAllowed, VoteVariation, OtherVoteVariation }) {
    const votes = (key) => (VotesAllowed === undefined ? [] : [ownLine('votes', say(key, { count: Number(VotesAllowed) }))]);
    if (NO_COUNT.has(VoteVariation)) {
        return [ownLine('variation', say(`ballot.way.${VoteVariation}`)), ...votes('ballot.votesInFile')];
    }
    const way = OtherVoteVariation ?? VoteVariation;
    return [...votes('ballot.votes'), ...(way === undefined ? [] : [ownLine('variation', say('ballot.way', { way: sayIfKnown(`variation.${way}`) ?? way }))])];
}

function labelOf(value) {
    return typeof value === 'string' ? [{ lang: '', text: value }]
        : value.Text.map(({ Language, Content }) => ({ lang: Language, text: Content })).sort((one, other) => (one.lang < other.lang ? -1 : 1));
}

function plainLine(role, text) {
    return { role, label: [{ lang: '', text }] };
}

function ownLine(role, text) {
    return { ...plainLine(role, text), own: true };
}
