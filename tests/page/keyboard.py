"""What a user does with the keyboard alone: each flow by Tab, Enter, Space and the arrow keys."""
from session import COUNTY, EXAMPLES, SMALL, SUITE

TAB, ENTER, SPACE, SHIFT, DOWN = '\ue004', '\ue007', ' ', '\ue008', '\ue015'
MOST_STEPS = 60


def run(session):
    examples(session)
    files(session)
    preferred(session)
    cards(session)
    saved(session)
    printed(session)
    cancelled(session)


def step_to(session, selector):
    """Presses Tab until the element has the focus; tells whether it got it."""
    for _ in range(MOST_STEPS):
        session.browser.press(TAB)
        if session.browser.script('return document.activeElement.matches(arguments[0])', selector):
            return True
    return False


def focused(session):
    """The name of the element that has the focus."""
    return session.browser.script('return document.activeElement.id')


def typed(session, *paths):
    """Types names of files into the button that has the focus; the dialogue of the browser is not part of the page."""
    session.browser.script('return document.activeElement').type('\n'.join(map(str, paths)))


def examples(session):
    """The examples, by Tab and Enter."""
    session.fresh()
    step_to(session, '#examples li:nth-child(2) button')
    session.browser.press(ENTER)
    session.becomes('keyboard: an example', session.verdict, 'These two files do not say the same')
    step_to(session, '.differences summary')
    session.browser.press(ENTER)
    session.becomes('keyboard: another difference', lambda: session.texts('.differences td') != [], True)


def files(session):
    """Two files, one of them removed again."""
    session.fresh()
    step_to(session, '#input-0')
    typed(session, COUNTY[0])
    session.becomes('keyboard: one file', session.verdict, 'Accepted')
    session.becomes('keyboard: what is folded keeps the focus', lambda: focused(session), 'choose-others')
    session.browser.press(ENTER)
    session.becomes('keyboard: the files are shown again', lambda: focused(session), 'input-0')
    step_to(session, '#input-1')
    typed(session, COUNTY[1])
    session.becomes('keyboard: two files', session.verdict, 'These two files define the same ballots')
    session.browser.press(ENTER)
    step_to(session, '#remove-1')
    session.browser.press(SPACE)
    session.becomes('keyboard: one removed', session.verdict, 'Accepted')
    session.becomes('keyboard: the focus goes on', lambda: focused(session), 'input-0')


def preferred(session):
    """A preferred type of identifier, by the arrow keys."""
    case = SUITE / 'prefer-accepted-under-a-preference'
    prefer = (case / 'prefer').read_text(encoding='utf-8').rstrip('\n')
    session.equal('keyboard: without a preference', session.judged(case / 'input.json'), 'Refused: 1 fault')
    step_to(session, '#prefer')
    place = session.texts('#prefer option').index(prefer)
    session.browser.press(*[DOWN] * place)
    session.browser.press(ENTER)
    session.browser.until('return document.getElementById("prefer").value === arguments[0]', prefer)
    session.becomes('keyboard: under a preference', session.verdict, 'Accepted')


def cards(session):
    """The explanation of a fault is opened and closed."""
    session.judged(SUITE / 'shape-faults-of-the-whole-first-phase' / 'input.json')
    step_to(session, '.card summary')
    is_open = 'return document.activeElement.parentElement.open'
    before = session.browser.script(is_open)
    session.browser.press(ENTER)
    session.becomes('keyboard: an explanation', lambda: session.browser.script(is_open), not before)


def saved(session):
    """The canonical form is saved."""
    session.judged(SMALL)
    (session.work / 'downloads' / 'small-ballot.canonical.json').unlink(missing_ok=True)
    session.browser.script("document.querySelector('.record').querySelector('button').focus()")
    step_to(session, '.record button:last-child')
    session.browser.press(ENTER)
    canonical = (EXAMPLES / 'small-ballot.canonical.json').read_bytes()
    session.equal('keyboard: the canonical form', session.downloaded('small-ballot.canonical.json'), canonical)


def printed(session):
    """The button for printing asks the browser to print."""
    session.judged(SMALL)
    session.browser.script('window.print = () => { window.printed = true; }')
    session.browser.script("document.getElementById('verdict').focus()")
    step_to(session, '.record button.main')
    session.browser.press(SPACE)
    session.becomes('keyboard: print', lambda: session.browser.script('return window.printed'), True)


def cancelled(session):
    """A judgement is cancelled while it runs."""
    session.fresh()
    session.choose(0, session.large)
    session.browser.until("return document.documentElement.dataset.busy === 'yes'")
    session.browser.script("document.getElementById('choose-others').focus()")
    step_to(session, '#cancel')
    session.browser.press(ENTER)
    session.becomes('keyboard: cancelled', session.verdict, 'Cancelled')
    session.becomes('keyboard: the focus after that', lambda: focused(session), 'input-0')
    session.choose(0, SMALL)
    session.becomes('keyboard: a file after that', session.verdict, 'Accepted')
