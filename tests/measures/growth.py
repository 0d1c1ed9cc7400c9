"""Holds `erd prepare` with all steps against reports on which a step could take the square of what it reads, by their size: as many objects as
that, all of which ask one of them for its many identifiers, or all of which are alike. One twice as large takes at most 2.2 times the
instructions, where a square would take four times as many. Needs valgrind and `./erd`. One line a case.
"""
import json
import os
import pathlib
import sys

from measuring import at_most, counted_cases, instructions

EXAMPLES = pathlib.Path(__file__).resolve().parents[2] / 'examples'
MOST = 2.2
SIZE = 100
ALL_STEPS = 'removed,filled-in,visible,view'


def identifiers(*values, kind='local-level'):
    """Identifiers with these values."""
    return [{'@type': 'ElectionResults.ExternalIdentifier', 'Type': kind, 'Value': str(value)} for value in values]


def many(size):
    """As many identifiers of one object."""
    return identifiers(*(f'M{number}' for number in range(size)))


def base():
    report = json.loads((EXAMPLES / 'one-unit.json').read_text(encoding='utf-8'))
    return report, report['Election'][0]


def counties(size):
    """Precincts of two counties, which have many identifiers, with numbers that begin again."""
    report, _ = base()
    report['GpUnit'] = [{'@id': f'c{county}', '@type': 'ElectionResults.ReportingUnit', 'Type': 'county', 'ExternalIdentifier':
                         identifiers(f'{county}', kind='fips') + many(size), 'ComposingGpUnitIds': [f'p{county}-{at}' for at in range(size)]}
                        for county in range(2)]
    report['GpUnit'] += [{'@id': f'p{county}-{at}', '@type': 'ElectionResults.ReportingUnit', 'Type': 'precinct',
                          'ExternalIdentifier': identifiers(f'P{at}')} for county in range(2) for at in range(size)]
    return report


def write_ins(size):
    """Pairs of write-in lines of one contest, each pair for a candidate of its own."""
    report, election = base()
    election['Candidate'] = [{'@id': f'k{at}', '@type': 'ElectionResults.Candidate', 'BallotName': {'Text': []},
                              'ExternalIdentifier': identifiers(f'K{at}')} for at in range(size)]
    election['Contest'] = [{'@id': 'contest', '@type': 'ElectionResults.CandidateContest', 'Name': 'Mayor', 'VotesAllowed': 1,
                            'ExternalIdentifier': identifiers('C'), 'ContestSelection': [
                                {'@id': f's{at}-{twin}', '@type': 'ElectionResults.CandidateSelection', 'IsWriteIn': True, 'CandidateIds': [f'k{at}']}
                                for at in range(size) for twin in range(2)]}]
    return report


def lines_of_one(size):
    """Lines of as many contests for one candidate, who has many identifiers."""
    report, election = base()
    election['Candidate'] = [{'@id': 'k', '@type': 'ElectionResults.Candidate', 'BallotName': {'Text': []}, 'ExternalIdentifier': many(size)}]
    election['Contest'] = [{'@id': f'c{at}', '@type': 'ElectionResults.CandidateContest', 'Name': 'Mayor', 'VotesAllowed': 1,
                            'ExternalIdentifier': identifiers(f'C{at}'), 'ContestSelection': [
                                {'@id': f's{at}-{twin}', '@type': 'ElectionResults.CandidateSelection', 'IsWriteIn': True, 'CandidateIds': ['k']}
                                for twin in range(2)]} for at in range(size)]
    return report


def contests(size):
    """Contests of one code in one district and one election, which both have many identifiers."""
    report, election = base()
    election['ExternalIdentifier'] = many(size)
    report['GpUnit'] = [{'@id': 'u', '@type': 'ElectionResults.ReportingUnit', 'Type': 'county', 'ExternalIdentifier': many(size)}]
    election['Contest'] = [{'@id': f'c{at}', '@type': 'ElectionResults.BallotMeasureContest', 'Name': 'Measure', 'ElectionDistrictId': 'u',
                            'ExternalIdentifier': identifiers('C')} for at in range(size)]
    return report


def styles(size):
    """Styles of one code in one precinct of a county, which both have many identifiers."""
    report, election = base()
    report['GpUnit'] = [{'@id': 'c', '@type': 'ElectionResults.ReportingUnit', 'Type': 'county', 'ExternalIdentifier': many(size),
                         'ComposingGpUnitIds': ['u']},
                        {'@id': 'u', '@type': 'ElectionResults.ReportingUnit', 'Type': 'precinct', 'ExternalIdentifier': many(size)}]
    election['BallotStyle'] = [{'@type': 'ElectionResults.BallotStyle', 'GpUnitIds': ['u'], 'ExternalIdentifier': identifiers('S')}
                               for _ in range(size)]
    return report


def candidates(size):
    """Candidates of one code in one contest with many identifiers, all of one person."""
    report, election = base()
    report['Person'] = [{'@id': f'p{at}', '@type': 'ElectionResults.Person', 'ExternalIdentifier': identifiers('P')} for at in range(size)]
    election['Candidate'] = [{'@id': f'k{at}', '@type': 'ElectionResults.Candidate', 'BallotName': {'Text': []}, 'PersonId': f'p{at}',
                              'ExternalIdentifier': identifiers('K')} for at in range(size)]
    election['Contest'] = [{'@id': 'c', '@type': 'ElectionResults.CandidateContest', 'Name': 'Mayor', 'VotesAllowed': 1, 'ExternalIdentifier':
                            many(size), 'ContestSelection': [{'@id': f's{at}', '@type': 'ElectionResults.CandidateSelection',
                                                              'CandidateIds': [f'k{at}']} for at in range(size)]}]
    return report


REPORTS = (counties, write_ins, lines_of_one, contests, styles, candidates)


def counted(report, folder):
    """The instructions of a preparation, which may leave faults."""
    path = os.path.join(folder, 'report')
    with open(path, 'w', encoding='utf-8') as file:
        json.dump(report, file)
    return instructions(['./erd', 'prepare', '--steps', ALL_STEPS, path], statuses=(0, 1))


def cases(folder):
    for make in REPORTS:
        ratio = counted(make(2 * SIZE), folder) / counted(make(SIZE), folder)
        yield '%s: one twice as large takes %.2f times the instructions' % (make.__doc__.split('.')[0], ratio), at_most(MOST, ratio)


if __name__ == '__main__':
    sys.exit(counted_cases(cases, 'the reports on which a step could take the square'))
