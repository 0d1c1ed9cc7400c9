"""Small reports in which a step of `prepare` has to decide: each with the step that decides."""
from damages import CLASS, identifier


def typed(name, **members):
    return {'@type': CLASS + name, **members}


def report(**members):
    return typed('ElectionReport', **members)


def election(**members):
    return typed('Election', **{'Name': 'Test', 'StartDate': '2026-11-03', **members})


def other(kind, value):
    return {'@type': CLASS + 'ExternalIdentifier', 'Type': 'other', 'OtherType': kind, 'Value': value}


def unit(name, *identifiers, **members):
    return typed('ReportingUnit', **{'@id': name, 'Type': 'precinct', 'ExternalIdentifier': list(identifiers), **members})


def contest(name, *identifiers, **members):
    return typed('CandidateContest', **{'@id': name, 'Name': 'Seat', 'ExternalIdentifier': list(identifiers), **members})


def line(name, **members):
    return typed('CandidateSelection', **{'@id': name, **members})


PARTIES = [typed('Party', **{'@id': f'p{number}', 'Name': 'Blue'}) for number in (1, 2)]

REPORTS = {
    'two codes of two other types': ('codes', report(Election=[election(Contest=[contest('c1', other('a', '1')), contest('c2', other('b', '1'))])])),
    'two elections with one code': ('codes', report(Election=[
        election(ExternalIdentifier=[identifier('E')]), election(ExternalIdentifier=[identifier('E')], StartDate='2026-11-10')])),
    'two codes of one type': ('codes', report(GpUnit=[unit('u1', identifier('U1')), unit('u2', identifier('U2'))], Election=[election(Contest=[
        contest('c1', identifier('1'), identifier('5'), ElectionDistrictId='u1'), contest('c2', identifier('1'), ElectionDistrictId='u2')])])),
    'the code of the county': ('county-codes', report(GpUnit=[
        unit('a', identifier('A', 'fips'), Type='county', ComposingGpUnitIds=['a1', 'a2']), unit('a1', identifier('1')),
        unit('a2', identifier('2'), identifier('A', 'fips')), unit('b', identifier('B', 'fips'), Type='county', ComposingGpUnitIds=['b1']),
        unit('b1', identifier('1'), identifier('A', 'fips'))])),
    'a county with another least code': ('county-codes', report(GpUnit=[
        unit('a', identifier('0', 'a'), identifier('A', 'fips'), Type='county', ComposingGpUnitIds=['a1']),
        unit('a1', identifier('1'), ComposingGpUnitIds=['a2', 'a3']), unit('a2', identifier('2')), unit('a3', identifier('3')),
        unit('b', identifier('B', 'fips'), Type='county', ComposingGpUnitIds=['b1', 'a3']), unit('b1', identifier('1')), unit('b2', identifier('2')),
        unit('c', identifier('C', 'fips'), Type='county', ComposingGpUnitIds=['b2', 'c1', 'c2']), unit('c1', identifier('3')), unit('c2', identifier('1'))])),
    'a device without a prefix': ('devices', report(GpUnit=[
        {'@id': 'd', '@type': 'ReportingDevice'}, unit('u', identifier('U'), ComposingGpUnitIds=['d', 'x']), unit('x', identifier('X')),
        typed('ReportingDevice', **{'@id': 'x'})])),
    'a person of two names': ('names', report(Person=[typed('Person', **{'@id': 'n', 'FirstName': 'Ann', 'LastName': 'Ash'})])),
    'entries that recur': ('repeated', report(Party=[{**PARTIES[0], 'ExternalIdentifier': [
        identifier('1'), dict(reversed(identifier('1').items())), {**identifier('2'), 'Carried': 1.5}, {**identifier('2'), 'Carried': 1.5},
        {**identifier('3'), 'Carried': [1, 2]}, {**identifier('3'), 'Carried': [1, 2]}]}])),
    'a line and a candidate of one name': ('twin-ids', report(Party=[typed('Party', **{'@id': 'selection-k'})], Election=[election(
        Candidate=[typed('Candidate', **{'@id': 'k', 'BallotName': 'Ann'})],
        Contest=[contest('c', ContestSelection=[line('k', CandidateIds=['k'])])],
        BallotStyle=[typed('BallotStyle', OrderedContent=[typed('OrderedContest', ContestId='c', OrderedContestSelectionIds=['k'])])])])),
    'a person in a note': ('unused-persons', report(Notes='n', Person=[typed('Person', **{'@id': 'n', 'FullName': 'Ann'})])),
    'vendor numbers': ('vendor-identifiers', report(Party=[
        {**PARTIES[0], 'PartyNumberId': '7'}, {**PARTIES[1], 'PartyNumberId': '7'}, {**PARTIES[0], '@id': 'p3', 'OwnerId': 'p1'}])),
    'vendor names': ('vendor-texts', report(Party=[{**PARTIES[0], 'OwnerId': '7', 'OwnerCode': '8', 'AgentId': '9'}])),
    'numbers of write-in lines': ('write-in-lines', report(Election=[election(Contest=[contest('c', identifier('C'), ContestSelection=[
        line('w1', IsWriteIn=True), line('w2', IsWriteIn=True), line('w3', IsWriteIn=True, SequenceOrder=1), line('w4', IsWriteIn=True)])],
        BallotStyle=[typed('BallotStyle', ExternalIdentifier=[identifier('S')], OrderedContent=[
            typed('OrderedContest', ContestId='c', OrderedContestSelectionIds=['w4', 'w2', 'w1', 'w3'])])])])),
}
