"""The card of a file, and what differs on the ballots of two files in sentences: by contest and ballot style, with a filter and steps."""
import answers
from made import candidate_contest, listed, measure, report, style, written
from session import COUNTY

SENTENCES = 'return [...document.querySelectorAll(".finding > summary")].map((one) => one.textContent)'
IS_BEFORE = """
    const follows = document.getElementById('on-ballots').compareDocumentPosition(document.getElementById('first-difference'));
    return (follows & Node.DOCUMENT_POSITION_FOLLOWING) !== 0"""
OPEN = 'return [...document.querySelectorAll(".finding")].map((one) => one.open)'
CARD = """
    return Object.fromEntries([...document.querySelectorAll('#card dl > div')].map((row) => [row.querySelector('dt').textContent, row.querySelector('dd').textContent]))"""
UNITS = ['East', 'West', 'North', 'South']
WHOLE = ['S: Ann Bo W', 'M: Yes No']


def made(*styles, **members):
    """A report with a ballot style for each list of lines, the first one for East, the second one for West."""
    contests = [candidate_contest('S', 'Sheriff', 'Ann', 'Bo'), measure('M', 'Measure 2')]
    return report(contests, [style(f'BS-{number}', [listed(line) for line in lines], f'gp-{number}') for number, lines in enumerate(styles, 1)], UNITS, **members)


def run(session):
    card(session)
    troubles(session)
    unprinted(session)
    sentences(session)
    filtered(session)


def card(session):
    """The election, the counts, the languages, whether it is a test, and the precincts with their ballot styles."""
    session.judged(COUNTY[0])
    say = answers.say
    session.equal('card: what it has', session.browser.script(CARD), {
        say('record.election'): 'Larkmoor County General Election, general election, 2026-11-03', say('card.kind'): say('card.real'), say('card.part'): say('card.whole'),
        say('card.counts'): '12 precincts, 4 ballot styles, 12 contests, 17 candidates, 5 parties, 5 offices, 14 persons, 7 headers, 18 units in all',
        say('card.languages'): 'American English (en-US), Spanish (United States) (es-US)'})
    session.equal('card: nothing is missing', session.text('#card dl + p'), say('card.fine'))
    session.browser.script("document.querySelector('#card .folded').open = true")
    session.becomes('card: the precincts', lambda: session.texts('.precincts tr:nth-child(4) > *, .precincts > tr:nth-of-type(4) > *')[-3:],
                    ['Dunmore', 'local-level P-4', 'local-level BS-2'])


def troubles(session):
    """Precincts on no ballot style or on two, a contest on no ballot, and one part of several of a test."""
    one = made(WHOLE[:1], WHOLE[:1], IsTest=True) | {'SequenceStart': 3, 'SequenceEnd': 5}
    one['Election'][0]['BallotStyle'][1]['GpUnitIds'] = ['gp-1', 'gp-2']
    session.judged(written(session, 'part.json', one))
    found = session.browser.script(CARD)
    session.equal('card: a part of a test', [found[answers.say('card.kind')], found[answers.say('card.part')]], [answers.say('card.test'), 'part 3 of 5'])
    session.equal('card: what is missing', session.texts('#card .warned > summary'),
                  [answers.say('card.none', count=2), answers.say('card.several', count=1), answers.say('card.unlisted', count=1)])
    session.browser.script("document.querySelectorAll('#card .warned').forEach((one) => { one.open = true; })")
    session.becomes('card: their names', lambda: [session.texts('#card .warned tbody th, #card .warned table > tr > th'), session.texts('#card .warned li')],
                    [['North', 'South', 'East'], ['Measure 2 (local-level M)']])


def unprinted(session):
    """The members that no ballot has. A flag that is off is not one."""
    one = made(WHOLE, WHOLE)
    one['GpUnit'][0] |= {'IsDistricted': True, 'Phone': '555'}
    one['Election'][0]['Candidate'][0] |= {'CampaignSlogan': 'Roofs first', 'FileDate': '2026-05-01', 'IsIncumbent': True}
    one['Election'][0]['Candidate'][1]['IsIncumbent'] = False
    session.judged(written(session, 'unprinted.json', one))
    session.browser.script("document.querySelectorAll('#card details').forEach((one) => { one.open = true; })")
    session.becomes('card: members that no ballot has', lambda: sorted(session.texts('.unprinted li')), [
        'Candidates: day of filing (FileDate), 1 time', *(f'{parts}: external identifiers (ExternalIdentifier), {count} times'
                                                           for parts, count in (('Candidates', 2), ('Contests', 2), ('Units', 4))),
        'Units: mark of a district (IsDistricted), 1 time'])


# Of each case the lists of the right file, and the sentences. The left file has all lines on two ballots.
CASES = {
    'a lost yes': ([['S: Ann Bo W', 'M: No'], ['S: Ann Bo W', 'M: No']], ['Measure 2, on 2 of 2 ballots: the choice Yes is missing in the second file']),
    'a lost contest on one ballot': ([['S: Ann Bo W'], WHOLE], ['Measure 2, on 1 of 2 ballots: it is missing in the second file']),
    'another order': ([['S: Ann W Bo', 'M: Yes No'], ['M: Yes No', 'S: Ann Bo W']], [
        'Sheriff, on 1 of 2 ballots: the choice Bo stands at another place in the second file',
        'Sheriff, on 1 of 2 ballots: it stands at another place in the second file']),
    'several moves': ([['S: W Bo Ann', 'M: Yes No'], WHOLE], ['Sheriff, on 1 of 2 ballots: its choices stand in another order']),
    'a ballot style': ([WHOLE], ['The ballot style, on 1 of 2 ballots: it is missing in the second file']),
}


def sentences(session):
    left = written(session, 'left.json', made(WHOLE, WHOLE))
    for name, (styles, wanted) in CASES.items():
        session.judged(left, written(session, 'right.json', made(*styles)))
        session.equal(f'sentences: {name}', sorted(session.browser.script(SENTENCES)), sorted(wanted))
        session.equal(f'sentences: {name}, how many', session.text('#on-ballots'), answers.say('finding.heading', count=len(wanted)))
    session.equal('sentences: they stand before the list', session.browser.script(IS_BEFORE), True)
    other = made(WHOLE, WHOLE)
    other['Election'][0]['Candidate'][0]['BallotName'] = 'Anne'
    other['Election'][0]['Contest'][0]['VotesAllowed'] = 2
    session.judged(left, written(session, 'right.json', other))
    session.equal('sentences: words', session.browser.script(SENTENCES), [
        'Sheriff, on 2 of 2 ballots: its number of votes is “Vote for 1” in the first file, and “Vote for up to 2” in the second',
        'Sheriff, on 2 of 2 ballots: of the choice Anne, the name is “Ann” in the first file, and “Anne” in the second'])
    same = made(WHOLE, WHOLE)
    same['GpUnit'][0]['IsDistricted'] = True
    session.judged(left, written(session, 'right.json', same))
    session.equal('sentences: none where no ballot differs', session.texts('.on-ballots'), [])


def step(session, name):
    """Clicks a step. The page may scroll to what it opens meanwhile, so the click does not go by a place in the window."""
    session.browser.script("document.getElementById(arguments[0]).click()", f'finding-{name}')


def filtered(session):
    """The filter, the steps, and the ballot behind a sentence."""
    session.judged(written(session, 'left.json', made(WHOLE, WHOLE)), written(session, 'right.json', made(['S: Ann Bo', 'M: No'], WHOLE)))
    step(session, 'next')
    session.becomes('sentences: the next one', lambda: session.browser.script(OPEN), [True, False])
    session.becomes('sentences: its ballot', lambda: session.texts('.finding .ballot-mark'), ['removed', 'removed'])
    step(session, 'next')
    session.becomes('sentences: the one after it', lambda: session.browser.script(OPEN), [False, True])
    step(session, 'previous')
    session.becomes('sentences: the one before', lambda: session.browser.script(OPEN), [True, False])
    session.browser.one('#finding-filter').type('yes')
    session.becomes('sentences: by words', lambda: session.browser.script(SENTENCES), ['Measure 2, on 1 of 2 ballots: the choice Yes is missing in the second file'])
    session.browser.one('#finding-filter').type(' bs-2')
    session.becomes('sentences: none has the words', lambda: session.text('.on-ballots .none'), answers.say('finding.none'))
