"""The accessibility check: WCAG 2.2 AA, as far as a program can judge it, for each state of the page, light and dark."""
import pathlib

from session import EXAMPLES, SUITE

CHECK = (pathlib.Path(__file__).parent / 'accessibility.js').read_text(encoding='utf-8')
TAB = '\ue004'
CONTROLS = 'button, select, summary, input, progress, [tabindex="0"]'
MOST_STEPS = 120

# The spacing of texts that a reader may ask for (1.4.12).
SPACED = """
    for (const node of document.querySelectorAll('body *')) {
        node.style.lineHeight = '1.5';
        node.style.letterSpacing = '0.12em';
        node.style.wordSpacing = '0.16em';
    }"""

# Where the focus is, and whether it can be seen: an outline, which is not hidden behind something else.
FOCUS = """
    const node = document.activeElement;
    const holder = node.matches('input[type="file"]') ? node.parentElement : node;
    const {outlineStyle, outlineWidth} = getComputedStyle(holder);
    const {top, bottom, left, right} = holder.getBoundingClientRect();
    const isSeen = bottom > 0 && top < innerHeight && right > 0 && left < innerWidth;
    return [[...document.querySelectorAll('*')].indexOf(node), outlineStyle !== 'none' && parseFloat(outlineWidth) >= 2, isSeen,
        node.tagName + ' ' + (node.id || node.textContent.trim().slice(0, 30))];"""


# Faults that the check has to find.
PLANTED = {
    'a pale text': "document.querySelector('.note, .promise').style.color = '#9aa5b1'",
    'a pale edge of a button': "document.querySelector('#examples button').style.borderColor = '#e0e0e0'",
    'a button without a height': "Object.assign(document.querySelector('#examples button').style, {minHeight: '0', padding: '0', fontSize: '8px'})",
    'a heading left out': "document.querySelector('h2').outerHTML = '<p>x</p>'",
    'an image without a text': "document.querySelector('main').append(document.createElement('img'))",
    'an id used twice': "document.querySelector('main').append(Object.assign(document.createElement('p'), {id: 'result'}))",
    'a label for nothing': "document.querySelector('[aria-labelledby]').setAttribute('aria-labelledby', 'nothing')",
    'no live region': "document.querySelector('[role=status]').removeAttribute('role')",
    'a text outside of the landmarks': "document.body.append(Object.assign(document.createElement('p'), {textContent: 'x'}))",
    'no language': "document.documentElement.lang = ''",
}


def run(session):
    def example(position):
        session.fresh()
        session.browser.script("document.querySelectorAll('#examples button')[arguments[0]].click()", position)
        session.verdict()
        session.open_details()

    states = {
        'the start': session.fresh,
        'the same ballots': lambda: example(0),
        'a difference': lambda: example(1),
        'faults': lambda: example(2),
        'not JSON': lambda: session.judged(SUITE / 'reading-report-cut-short' / 'input.json'),
        'many files': lambda: many(session),
        'the steps that prepare a copy': lambda: steps(session),
        'a prepared copy': lambda: copied(session),
        'a file in XML': lambda: in_xml(session),
    }
    for name, show in states.items():
        show()
        checked(session, name)
    planted(session)
    names_of_controls(session, lambda: example(1))
    order_of_focus(session, lambda: example(2))
    order_of_focus(session, lambda: steps(session))
    narrow(session, [lambda: example(1), lambda: example(2), lambda: many(session), lambda: steps(session), lambda: copied(session)])


def many(session):
    """A table of three files."""
    session.fresh()
    session.choose(0, *(EXAMPLES / name for name in ('county.vendor-a.json', 'county.vendor-b.json', 'one-unit.json')))
    session.browser.until("return document.documentElement.dataset.busy === 'no' && document.querySelector('#many-files tbody tr') !== null")


def in_xml(session):
    """An accepted file that was converted from XML, of which two places were not understood."""
    odd = b'<ElectionReport xmlns="http://itl.nist.gov/ns/voting/1500-100/v2"><Status>pre-election</Status><X/><Y Z="1"/></ElectionReport>'
    session.judged(session.file('odd.xml', odd))
    session.browser.until("return document.querySelectorAll('.notice').length > 1")


def steps(session):
    """The steps for an export, each with what it would change."""
    session.judged(EXAMPLES / 'municipal.raw.json')
    session.click('#prepare-begin-0')
    session.browser.until("return document.querySelector('#prepare-check-0') !== null")
    session.browser.script("document.querySelectorAll('.prepare details').forEach((one) => { one.open = true; })")


def copied(session):
    """The copy, which is judged."""
    steps(session)
    session.browser.script("document.getElementById('verdict').remove()")
    session.click('#prepare-check-0')
    session.verdict()


def checked(session, name):
    """One state, in light and in dark colours."""
    for dark in (False, True):
        session.browser.scheme(dark)
        session.equal('accessible: %s, %s' % (name, 'dark' if dark else 'light'), session.browser.script(CHECK), [])
    session.browser.scheme(False)


def planted(session):
    """The check finds what is planted."""
    for name, script in PLANTED.items():
        session.fresh()
        session.browser.script(script)
        session.said('accessible: the check finds ' + name, '' if session.browser.script(CHECK) else 'it does not')


def names_of_controls(session, show):
    """Each control has a name and a role, as the browser tells them to a screen reader."""
    show()
    for control in session.browser.all(CONTROLS):
        if not session.browser.script('return arguments[0].checkVisibility()', control):
            continue
        label, role = control.label(), control.role()
        text = session.browser.script('return arguments[0].matches("button, summary") ? arguments[0].innerText.trim() : ""', control)
        fits = label and role not in ('none', 'generic') and (text == '' or ' '.join(text.split())[:20] in ' '.join(label.split()))
        if not fits:
            session.said('accessible: a control', '%s: label %r, role %r' % (text, label, role))
    session.said('accessible: the names of controls', '')


def order_of_focus(session, show):
    """Tab goes through all controls in their order, and the focus is seen at each."""
    show()
    places, names, unseen = [], [], []
    for _ in range(MOST_STEPS):
        session.browser.press(TAB)
        place, has_outline, is_seen, name = session.browser.script(FOCUS)
        if name.startswith(('BODY', 'HTML')) or place in places:
            break
        places.append(place)
        names.append(name)
        if not (has_outline and is_seen):
            unseen.append(name)
    session.equal('accessible: the order of focus', places, sorted(places))
    session.equal('accessible: the focus is seen', unseen, [])
    session.said('accessible: many controls', '' if len(places) > 10 else ', '.join(names))


def narrow(session, states):
    """Nothing is cut off or scrolled sideways in a window of 320 pixels, with wide spacing too (1.4.10 and 1.4.12)."""
    for position, show in enumerate(states):
        show()
        session.browser.resize(320, 640)
        wide = "return document.documentElement.scrollWidth - document.documentElement.clientWidth"
        session.equal('accessible: narrow, %d' % (position + 1), session.browser.script(wide), 0)
        session.equal('accessible: narrow and checked, %d' % (position + 1), session.browser.script(CHECK), [])
        session.browser.script(SPACED)
        session.equal('accessible: wide spacing, %d' % (position + 1), session.browser.script(wide), 0)
