"""Makes accepted reports for the tests of the page: an election of some contests, and ballot styles that list them."""
import json


def typed(name, **members):
    """An object of a class. `id` stands for `@id`."""
    named = {'@id': members.pop('id')} if 'id' in members else {}
    return {'@type': 'ElectionResults.' + name, **named, **members}


def identified(value, kind='local-level'):
    """A list with one identifier."""
    return [typed('ExternalIdentifier', Type=kind, Value=value)]


def candidate_contest(code, name, *names, **members):
    """A contest with a candidate for each name, and a line for a write-in at the end. With it come the candidates."""
    candidates = [typed('Candidate', id=f'ca-{code}-{one}', ExternalIdentifier=identified(f'K-{code}-{one}'), BallotName=one) for one in names]
    selections = [typed('CandidateSelection', id=f'{code}-{one}', CandidateIds=[f'ca-{code}-{one}']) for one in names]
    selections.append(typed('CandidateSelection', id=f'{code}-W', IsWriteIn=True))
    return typed('CandidateContest', id=code, ExternalIdentifier=identified(code), Name=name, ElectionDistrictId='gp-1', VotesAllowed=1,
                 ContestSelection=selections, **members), candidates


def measure(code, name, **members):
    """A contest with a yes and a no."""
    selections = [typed('BallotMeasureSelection', id=f'{code}-{word}', Selection=word) for word in ('Yes', 'No')]
    return typed('BallotMeasureContest', id=code, ExternalIdentifier=identified(code), Name=name, ElectionDistrictId='gp-1',
                 ContestSelection=selections, **members), []


def listed(text):
    """A contest on a ballot with its lines in order, as in `S: Ann Bo W`."""
    code, lines = text.split(':')
    return typed('OrderedContest', ContestId=code, OrderedContestSelectionIds=[f'{code}-{line}' for line in lines.split()])


def style(code, content, *units):
    """A ballot style for these units."""
    return typed('BallotStyle', ExternalIdentifier=identified(code), GpUnitIds=list(units or ['gp-1']), OrderedContent=content)


def report(contests, styles, units=('East',), **members):
    """A report with these contests, as `candidate_contest` and `measure` make them."""
    made = [typed('ReportingUnit', id=f'gp-{number}', ExternalIdentifier=identified(f'U{number}'), Name=name, Type='precinct')
            for number, name in enumerate(units, 1)]
    election = typed('Election', Name='Test', Type='general', StartDate='2026-11-03', EndDate='2026-11-03', ElectionScopeId='gp-1',
                     Candidate=[one for _, candidates in contests for one in candidates], Contest=[contest for contest, _ in contests],
                     BallotStyle=styles)
    empty = [name for name, value in election.items() if value == []]
    for name in empty:
        del election[name]
    return typed('ElectionReport', Format='precinct-contest', GeneratedDate='2026-08-01T09:00:00Z', Issuer='Vendor', IssuerAbbreviation='V',
                 VendorApplicationId='V 1', SequenceStart=1, SequenceEnd=1, Status='pre-election', GpUnit=made, Election=[election], **members)


def written(session, name, made):
    """The report as a file."""
    return session.file(name, json.dumps(made, ensure_ascii=False))
