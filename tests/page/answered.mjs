// For the tests of the page in Node: what the page answers on the ballots of reports that a test makes. The proved code judges them, so each
// report has to be accepted.
import { readFileSync } from 'node:fs';
import { load } from '../../bindings/js/index.mjs';
import { BallotAnswers } from '../../web/scripts/ballot_answers.mjs';
import { wordsOf } from '../../web/scripts/report_words.mjs';
import { ROOT } from './counted.mjs';

const erd = await load(readFileSync(new URL('out/portable/erd.wasm', ROOT)));

/** The words of a file, as bytes. */
export function wordsIn(bytes, prefer = null) {
    const checked = erd.check(bytes, { prefer });
    if (!checked.accepted) {
        throw new Error(checked.text);
    }
    return wordsOf(erd, bytes, prefer);
}

/** The answers on the ballots of one file or two, as bytes. */
export function ballotsIn(...files) {
    const ask = (call, sides, ...positions) => erd.toldOfBallots(call, sides.map((side) => files[side]), {}, ...positions);
    return new BallotAnswers(files.map((bytes) => wordsIn(bytes)), files.length < 2 ? [] : ask('erd_ballot_differences', [0, 1]), ask);
}

/** The bytes of a report, with what a test leaves out and each report has to have. */
export function bytesOf(report) {
    return new TextEncoder().encode(JSON.stringify(completed(report)));
}

/** The answers on the ballots of such reports. */
export function ballotsOf(...reports) {
    return ballotsIn(...reports.map(bytesOf));
}

function completed(report) {
    const [{ '@id': unit }] = report.GpUnit;
    return {
        Status: 'pre-election', ...report, GpUnit: report.GpUnit.map((one) => ({ Type: 'precinct', ...one })),
        Election: report.Election.map((election) => ({
            Type: 'general', EndDate: election.StartDate, ElectionScopeId: unit, ...election,
            Contest: election.Contest.map((contest) => ({
                ElectionDistrictId: unit, ...(contest['@type'] === 'ElectionResults.CandidateContest' ? { VotesAllowed: 1 } : {}), ...contest })),
        })),
    };
}
