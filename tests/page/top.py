"""The verdict is what a user sees: in a window of a desk and of a phone it is in view when all is done, whatever was chosen and how."""
from session import COUNTY, EXAMPLES, SMALL

SIZES = ((1280, 800), (375, 667))
FAULTY = EXAMPLES / 'state-primary.raw.json'
# Whether the choice of a type stands below the verdict, and whether it can be seen.
BOX = """
    const select = document.getElementById('prefer');
    const follows = document.getElementById('verdict').compareDocumentPosition(select) & Node.DOCUMENT_POSITION_FOLLOWING;
    return [follows !== 0, select.checkVisibility()];"""
IS_IN_VIEW = """
    const { top, bottom } = document.getElementById('verdict').getBoundingClientRect();
    return top >= 0 && bottom <= innerHeight;"""


def run(session):
    changed = session.file('changed.json', COUNTY[1].read_text(encoding='utf-8').replace('Ingrith', 'Ingrid'))
    cut = session.file('cut.json', SMALL.read_bytes()[:900])
    chosen = {'an accepted file': [SMALL], 'a refused file': [FAULTY], 'a file that is not JSON': [cut], 'two files that mean the same': COUNTY,
              'two files that differ': [COUNTY[0], changed], 'two files of which one is refused': [SMALL, FAULTY]}
    for name, paths in chosen.items():
        in_view(session, name, lambda paths=paths: session.choose(0, *paths))
    for number in range(3):
        in_view(session, f'example {number + 1}', lambda number=number: session.browser.all('#examples button')[number].click())
    in_view(session, 'two files of a table', lambda: of_table(session, COUNTY[0], changed, SMALL, FAULTY))
    identifiers(session, changed)


def identifiers(session, changed):
    """The box on identifiers stands below the verdict. It is open only where another type may help: not where all is well."""
    for name, paths, is_open in (('an accepted file', [COUNTY[0]], False), ('two files that mean the same', COUNTY, False),
                                 ('two files that differ', [COUNTY[0], changed], True), ('a refused file', [FAULTY], True)):
        session.judged(*paths)
        session.equal(f'top: the box on identifiers, {name}', session.browser.script(BOX), [True, is_open])


def in_view(session, name, act):
    for width, height in SIZES:
        session.fresh()
        session.browser.resize(width, height)
        act()
        session.verdict()
        session.becomes(f'top: {name}, {width} wide', lambda: session.browser.script(IS_IN_VIEW), True, seconds=3)


def of_table(session, *paths):
    """Compares the first two of these files from the table of all."""
    session.choose(0, *paths)
    session.browser.until("return document.documentElement.dataset.busy === 'no' && document.querySelectorAll('#many-files tbody tr').length > 0")
    for path in paths[:2]:
        session.browser.script("""
            [...document.querySelectorAll('#many-files tbody tr')].find((row) => row.firstChild.textContent === arguments[0]).querySelector('button').click()""", path.name)
