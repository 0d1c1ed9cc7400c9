"""What stands right below the verdict, and the box on what a voter sees."""
import json

import answers
from session import SMALL

MANY = 11_000
ENVELOPE = ['Format', 'GeneratedDate', 'Issuer', 'IssuerAbbreviation', 'VendorApplicationId', 'Notes', 'SequenceStart', 'SequenceEnd',
            'ExternalIdentifier']


def run(session):
    envelope(session)
    notes(session)
    repeated(session)
    same_bytes(session)
    unused_preference(session)
    after_election(session)
    seen(session)
    look_alikes(session)
    own_view(session)
    many_selections(session)
    long_names(session)
    long_values(session)
    other_type(session)
    worst_type(session)
    type_of_many(session)


def small(**changes):
    report = json.loads(SMALL.read_text(encoding='utf-8'))
    report.update(changes)
    return report


def written(session, name, report):
    return session.file(name, json.dumps(report, ensure_ascii=False))


def headings(session):
    return session.texts('.notice h3')


def envelope(session):
    """The nine members stand behind a word, with the values of both files."""
    other = written(session, 'other.json', small(Issuer='Vendor B', SequenceEnd=2, ExternalIdentifier=[
        {'@type': 'ElectionResults.ExternalIdentifier', 'Type': 'other', 'OtherType': 'job', 'Value': '7'}]))
    session.equal('envelope: the verdict', session.judged(SMALL, other), 'These two files define the same ballots')
    session.equal('envelope: its members', session.texts('.envelope p code'), ENVELOPE)
    rows = session.browser.script("""
        return [...document.querySelectorAll('.envelope tbody')].map((body) => [...body.querySelectorAll('th, td')].map((cell) => cell.textContent))""")
    left = small()
    session.equal('envelope: the values', [row for row in rows if row[0] in ('Issuer', 'SequenceEnd', 'ExternalIdentifier')],
                  [['Issuer', left['Issuer'], 'Vendor B'], ['SequenceEnd', str(left.get('SequenceEnd', 'not there')), '2'], ['ExternalIdentifier', 'not there', 'other job 7']])
    session.equal('envelope: those that differ', session.browser.script("return document.querySelectorAll('.envelope td.differs').length"), 6)
    session.equal('envelope: no notice', headings(session), [])


def notes(session):
    """Notes that differ are told right below the verdict, whatever it is."""
    other = written(session, 'other.json', small(Notes='Contest C1 is struck by court order'))
    session.equal('notes: the verdict', session.judged(SMALL, other), 'These two files define the same ballots')
    session.equal('notes: the notice', headings(session), ['The notes of the two files differ'])
    session.equal('notes: both', session.texts('.notice li'), ['small-ballot.json: not there', 'other.json: Contest C1 is struck by court order'])
    below = "return document.querySelector('.banner').parentElement.nextElementSibling.contains(document.querySelector('.notice'))"
    session.equal('notes: right below the verdict', session.browser.script(below), True)


def repeated(session):
    """Names that are written twice, with their places."""
    text = SMALL.read_text(encoding='utf-8').replace('"FullName":"Ann Ash"', '"FullName":"Bob Elm","FullName":"Ann Ash"')
    session.equal('names written twice: the verdict', session.judged(session.file('twice.json', text)), 'Accepted')
    session.equal('names written twice: the notice', headings(session), ['Names are written twice in twice.json'])
    session.equal('names written twice: the place', session.texts('.notice li'), ['/Person/0/FullName (2 times)'])


def same_bytes(session):
    """One file twice."""
    session.judged(SMALL, session.file('copy.json', SMALL.read_bytes()))
    session.equal('the same bytes', headings(session), ['The two files have the same bytes: it is one file twice, or a copy'])


def unused_preference(session):
    """A preference that no identifier of one file has."""
    report = small()
    report['GpUnit'][0]['ExternalIdentifier'].append({'@type': 'ElectionResults.ExternalIdentifier', 'Type': 'zone', 'Value': 'Z'})
    session.judged(SMALL, written(session, 'other.json', report))
    session.browser.script("""
        const select = document.getElementById('prefer');
        select.value = 'zone';
        select.dispatchEvent(new Event('change'));""")
    session.becomes('a preference that no identifier has', lambda: headings(session),
                    ['No identifier of small-ballot.json has the type zone, so its objects are matched as without a preference'])


def after_election(session):
    """A file of results says so."""
    session.judged(written(session, 'results.json', small(Status='certified')))
    session.has('after the election', session.text('.banner'), 'its Status is “certified”')


def seen(session):
    """Whether a voter sees a difference, and whether the ballots tell it."""
    def changed(change):
        report = small()
        change(report)
        return written(session, 'other.json', report)

    cases = {
        answers.say('seen.differ', differing=1, all=1): lambda report: report['Election'][0]['Contest'][0].update(Name='Mayor'),
        answers.say('seen.shownSame'): lambda report: report['GpUnit'][0].update(IsDistricted=True),
    }
    for heading, change in cases.items():
        session.judged(SMALL, changed(change))
        session.equal('what a voter sees: ' + heading, session.text('.seen h3'), heading)
        session.equal('the box of: ' + heading, session.browser.script("return document.querySelector('.seen').className"),
                      'seen quiet' if heading.startswith('No') else 'seen touched')
    session.judged(SMALL, changed(lambda report: report['Election'][0].update(Name='Another name')))
    session.equal('what a voter sees: the name of the election', session.text('.seen h3'), answers.say('seen.shownSame'))
    session.equal('the box of the name of the election', session.browser.script("return document.querySelector('.seen').className"), 'seen touched')
    session.judged(SMALL, changed(lambda report: report['Person'][0]['ExternalIdentifier'][0].update(Value='new')))
    # A candidate is another person's then, which the ballots tell.
    session.equal('what a voter sees: another person', [session.text('.seen h3'), session.texts('.seen .left-out li')],
                  [answers.say('seen.differ', differing=1, all=1), []])
    session.equal('what a voter sees: another person, in a sentence', session.texts('.finding > summary'),
                  ['Governor, on 1 of 1 ballots: ' + answers.say('finding.changed')])


def look_alikes(session):
    """Two names that look alike are told to differ, and how."""
    report = small()
    report['Election'][0]['Candidate'][0]['BallotName'] = '\u0410nn'
    left = small()
    left['Election'][0]['Candidate'][0]['BallotName'] = 'Ann'
    session.judged(written(session, 'left.json', left), written(session, 'right.json', report))
    session.equal('look-alikes: the letter is marked', session.texts('#first-difference ~ div tbody:last-child mark'), ['A', '\u0410'])
    session.has('look-alikes: the reason', session.text('.alike'), 'a letter of another alphabet')
    session.has('look-alikes: its explanation', session.text('.alike p'), 'looks like a Latin')
    report['Election'][0]['Candidate'][0]['BallotName'] = 'Ann 1'
    left['Election'][0]['Candidate'][0]['BallotName'] = 'Ann l'
    session.judged(written(session, 'left.json', left), written(session, 'right.json', report))
    session.equal('look-alikes: letters of one shape', session.text('.alike'), answers.say('alike.shapes'))
    session.has('look-alikes: told where the ballots differ, too', session.text('.on-ballots'), answers.say('alike.shapes'))


def with_selections(session, name, count, note, filling=''):
    """The small ballot with so many more selections for a write-in, which have this note, and names of this length."""
    report = small()
    report['Election'][0]['Contest'][0]['ContestSelection'] += [
        {'@type': 'ElectionResults.CandidateSelection', 'IsWriteIn': True, 'SequenceOrder': number, 'Note': note, 'ExternalIdentifier': [
            {'@type': 'ElectionResults.ExternalIdentifier', 'Type': 'fips', 'Value': f'{number}{filling}'}]} for number in range(count)]
    return written(session, name, report)


def many_selections(session):
    """More selections that differ than the page shows: it says how many more there are, in the record too."""
    session.judged(with_selections(session, 'left.json', 130, 1), with_selections(session, 'right.json', 130, 2))
    shown = session.texts('.inside > li')
    session.equal('many selections: the heading', session.texts('.inside-heading'), [answers.say('inside.heading.contest', count=130)])
    session.equal('many selections: the first and the last', [shown[0], *shown[-2:]],
                  [answers.say('inside.member', selection=f'write-in (place {number}, fips {number})', member='Note') for number in (0, 99)]
                  + [answers.say('inside.more', count=30)])
    session.equal('many selections: both values of the last', session.texts('[aria-labelledby="first-difference"] tbody:last-child :is(th, .value)'),
                  [answers.say('inside.values', selection='write-in (place 99, fips 99)', member='Note'), '1', '2'])
    filed = session.texts('[data-filed] li > div')
    session.equal('many selections: in the record', [len(filed), filed[1], filed[-1]], [41, '1 / 2', answers.say('inside.more', count=110)])


def long_names(session):
    """Selections that differ, with names that are longer than a megabyte together: the page says that they are not listed."""
    session.judged(*(with_selections(session, name, 4, note, 'x' * 300_000) for name, note in (('left.json', 1), ('right.json', 2))))
    session.equal('long names: they are not listed', session.texts('[aria-labelledby="first-difference"] > .note'), [answers.say('inside.notTold')])
    session.equal('long names: nor in the record', session.texts('[data-filed] li > div')[:1], [answers.say('inside.notTold')])


def long_values(session):
    """Selections that differ, with values that are longer than a megabyte together: those that fit are shown, and the page says that others
    are not listed."""
    session.judged(*(with_selections(session, name, 4, letter * 300_000) for name, letter in (('left.json', 'a'), ('right.json', 'b'))))
    session.equal('long values: the selections are listed', session.texts('.inside-heading'), [answers.say('inside.heading.contest', count=4)])
    session.equal('long values: those of the first are shown', session.texts('[aria-labelledby="first-difference"] tbody:nth-last-child(-n + 2) th'),
                  [answers.say('difference.identifier'), answers.say('inside.values', selection='write-in (place 0, fips 0)', member='Note')])
    session.equal('long values: others are not listed', session.texts('[aria-labelledby="first-difference"] > .note'), [answers.say('inside.tooLong')])
    session.equal('long values: nor in the record', session.texts('[data-filed] li > div')[-1:], [answers.say('inside.tooLong')])


def other_type(session):
    """Another type of identifier under which fewer objects differ is offered, and chosen by a click."""
    def with_codes(codes):
        report = small()
        for number, unit in enumerate(report['GpUnit'] + report['Person'] + report['Party']):
            unit['ExternalIdentifier'].insert(0, {'@type': 'ElectionResults.ExternalIdentifier', 'Type': 'a-vendor', 'Value': '%s%d' % (codes, number)})
        return report

    paths = [written(session, 'left.json', with_codes('x')), written(session, 'right.json', with_codes('y'))]
    session.judged(*paths)
    before = len(session.texts('.others tbody tr'))
    # Two units, a person and a party of each file have another code.
    session.equal('another type: it is offered', session.text('.offer p'), answers.say('offer.fewer', type='local-level', fewer=0, count=8))
    session.browser.script("document.querySelector('.offer button').click()")
    session.browser.until("return document.documentElement.dataset.busy === 'no' && document.getElementById('prefer').value === 'local-level'")
    session.said('another type: it is chosen', '' if before > 0 else 'no differences before')
    session.equal('another type: the record says so', session.texts('.record dd bdi')[-1:], ['local-level'])


def worst_type(session):
    """A type under which nothing is matched is not offered, though it has fewer differences than the right one."""
    def with_codes(codes, name):
        report = small()
        for number, unit in enumerate(report['GpUnit'] + report['Party']):
            unit['ExternalIdentifier'].append({'@type': 'ElectionResults.ExternalIdentifier', 'Type': 'z-vendor', 'Value': '%s%d' % (codes, number)})
            unit.update({f'Note{member}': name for member in range(9)})
        return report

    session.judged(written(session, 'left.json', with_codes('x', 1)), written(session, 'right.json', with_codes('y', 2)))
    session.equal('the worst type is not offered', session.texts('.offer p'), [])


def type_of_many(session):
    """Another type is offered where more objects differ than the page lists, too."""
    def with_codes(codes):
        report = small()
        unit = report['GpUnit'][0]
        report['GpUnit'] += [unit | {'@id': f'm{number}', 'ExternalIdentifier': [
            {'@type': 'ElectionResults.ExternalIdentifier', 'Type': kind, 'Value': value} for kind, value in (
                ('a-vendor', f'{codes}{number}'), ('local-level', f'M{number}'))]} for number in range(MANY)]
        return report

    session.judged(*(written(session, f'{codes}.json', with_codes(codes)) for codes in ('x', 'y')))
    session.becomes('another type, of many: it is offered', lambda: session.text('.offer p'),
                    answers.say('offer.fewer', type='local-level', fewer=0, count=2 * MANY))


def own_view(session):
    """Identifiers of a type that only one file has are left out by a click: that is a view beside the verdict, and so it stands in the record."""
    def made(vendor, name='Ann'):
        report = small()
        election = report['Election'][0]
        election['Candidate'][0]['BallotName'] = name
        for thing in (election['Candidate'][0], election['Contest'][0], report['GpUnit'][0]):
            thing['ExternalIdentifier'].append({'@type': 'ElectionResults.ExternalIdentifier', 'Type': 'other', 'OtherType': vendor, 'Value': vendor + '7'})
        return report

    left = written(session, 'left.json', made('vendor-a'))
    for name, report, wanted in (
            ('nothing else differs', made('vendor-b'), answers.say('own.same', types='other vendor-a, other vendor-b')),
            ('a name differs', made('vendor-b', 'Anne'), answers.say('own.different', types='other vendor-a, other vendor-b', count=1))):
        session.judged(left, written(session, 'right.json', report))
        session.becomes(f'own view: the types, {name}', lambda: session.texts('.own-offer li'), [
            answers.say('own.types', name='left.json', types='other vendor-a'), answers.say('own.types', name='right.json', types='other vendor-b')])
        session.click('#own-choose')
        session.becomes(f'own view: {name}', lambda: session.text('.own-view h3'), wanted)
        session.equal(f'own view: the verdict stays, {name}', session.text('#verdict'), answers.say('verdict.different'))
        session.becomes(f'own view: the record, {name}', lambda: session.browser.script("""
            return [...document.querySelectorAll('.record dt')].filter((one) => one.textContent === arguments[0]).map((one) => one.nextSibling.textContent)""",
            answers.say('record.own')), [wanted])
    session.judged(left, written(session, 'right.json', made('vendor-a', 'Anne')))
    session.equal('own view: not offered for the same types', session.texts('.own-offer'), [])
