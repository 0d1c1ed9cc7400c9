"""What a voter sees is told from the ballots that are shown, so the two agree, and what the ballots leave out is named."""
import re

import answers
from made import candidate_contest, identified, listed, measure, report, style, typed, written

UNITS = ['East', 'West']


def made(change=lambda report, election: None):
    contests = [candidate_contest('S', 'Sheriff', 'Ann', 'Bo'), measure('M', 'Measure 2')]
    one = report(contests, [style('BS-1', [listed('S: Ann Bo W'), listed('M: Yes No')], 'gp-1'), style('BS-2', [listed('M: Yes No')], 'gp-2')], UNITS)
    one['Person'] = [typed('Person', id='pe', ExternalIdentifier=identified('N1'), FullName='Ann Ash')]
    one['Office'] = [typed('Office', id='of', ExternalIdentifier=identified('O1'), Name='Sheriff')]
    one['Party'] = [typed('Party', id='pa', ExternalIdentifier=identified('P1'), Name='Blue')]
    change(one, one['Election'][0])
    return one


def other_codes(one, election):
    """Each identifier of the contest, the candidates and the styles is another one."""
    for thing in [*election['Contest'], *election['Candidate'], *election['BallotStyle']]:
        thing['ExternalIdentifier'] = identified('X' + thing['ExternalIdentifier'][0]['Value'])


SAME = ('seen.shownSame', {})
# Of each change the sentence, the ballots that differ, and what is named as left out.
CASES = {
    'a text inside an identifier': (lambda one, election: one['Office'][0]['ExternalIdentifier'][0].update(Label='x'), SAME, 0, ['Offices']),
    'a partisan office': (lambda one, election: one['Office'][0].update(IsPartisan=True), SAME, 0, ['IsPartisan']),
    'the party of a person': (lambda one, election: one['Person'][0].update(PartyId='pa'), SAME, 0, ['PartyId']),
    'the phone number of a polling place': (
        lambda one, election: one['GpUnit'][0].update(ContactInformation={'Phone': ['1']}),
        ('seen.differ', {'differing': 1, 'all': 2}), 1, ['ContactInformation']),
    # Each of the two styles stands under two codes then.
    'the numbers of a vendor': (other_codes, ('seen.differ', {'differing': 4, 'all': 4}), 4, []),
    'a name': (lambda one, election: election['Candidate'][0].update(BallotName='Anne'), ('seen.differ', {'differing': 1, 'all': 2}), 1, []),
    'a lost line': (lambda one, election: election['BallotStyle'][1].update(OrderedContent=[listed('M: Yes')]),
                    ('seen.differ', {'differing': 1, 'all': 2}), 1, []),
    'rotation': (lambda one, election: election['Contest'][0].update(HasRotation=True), ('seen.differ', {'differing': 1, 'all': 2}), 1, []),
    'a district': (lambda one, election: one['GpUnit'][0].update(IsDistricted=True), SAME, 0, []),
    'the name of the election': (lambda one, election: election.update(Name='Another'), SAME, 0, ['Name']),
}


def run(session):
    left = written(session, 'left.json', made())
    for name, (change, (key, values), differing, named) in CASES.items():
        session.judged(left, written(session, 'right.json', made(change)))
        session.equal(f'voter: {name}', session.text('.seen h3'), answers.say(key, **values))
        left_out = session.texts('.seen .left-out li')
        session.said(f'voter: {name}, what is left out', '' if len(left_out) == len(named) and all(word in line for word, line in zip(named, left_out)) else repr(left_out))
        session.open_details()
        session.equal(f'voter: {name}, the ballots', session.text('#ballots details + div, #ballots .controls + div > p'), answers.say('ballots.counts', changed=differing, all=values.get('all', 2)))
    ticket(session)
    partly(session)


def ticket(session):
    """The top of a ticket is another candidate: the two change places on the ballot."""
    def made_with(top):
        def change(one, election):
            election['Contest'][0]['ContestSelection'][0]['CandidateIds'] = ['ca-S-Ann', 'ca-S-Bo']
            election['Candidate'][top]['IsTopTicket'] = True
        return made(change)

    session.judged(*(written(session, f'{top}.json', made_with(top)) for top in (0, 1)))
    session.equal('voter: the top of a ticket', session.text('.seen h3'), answers.say('seen.differ', differing=1, all=2))
    session.equal('voter: the top of a ticket, which the ballots tell', session.texts('.seen .left-out li'), [])


MANY = 21_000


def partly(session):
    """More differences than are listed, of which a voter may see the last one: neither the page nor its record says that nothing is visible."""
    pair = []
    for is_one in (False, True):
        one = made(lambda one, election: one['Office'][0].update(IsPartisan=is_one))
        one['GpUnit'] += [typed('ReportingUnit', id=f'm{number}', ExternalIdentifier=identified(f'M{number}'), Type='other', IsDistricted=is_one)
                          for number in range(MANY)]
        pair.append(written(session, f'{is_one}.json', one))
    session.judged(*pair)
    found = re.search(r'lists the first ([\d,]+)', session.text('.others'))
    listed = int(found[1].replace(',', '')) if found else 0
    part = answers.say('seen.part', listed=listed, all=MANY + 1)
    session.equal('voter: of many differences', session.text('.seen h3'), answers.say('seen.shownSame'))
    session.has('voter: of which the page has looked at the first', session.text('.seen'), part)
    session.has('voter: of many differences, the record', session.text('.filed'), part)
    session.equal('voter: of many differences, their order in the record', session.text('[data-filed] > p'), answers.say('record.orderPart', listed=listed))
