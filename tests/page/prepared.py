"""From a refused export to an accepted copy by the page alone: for the exports of the examples, and three more. Each takes at most
five clicks and no typing. What the page writes and tells is what the package for Python writes and tells by the library of this machine:
ERD_LIBRARY names it, if it is not the one in out/portable."""
import json
import os
import platform
import re

from session import EXAMPLES, ROOT, report_of_units, sha256
import vendor_exports

os.environ.setdefault('ERD_LIBRARY', str(ROOT / f'out/portable/linux-{platform.machine()}/liberd.so.0'))
from erd.prepare import STEPS, Preparation, steps_of  # noqa: E402

MOST_CLICKS = 5
# So many units that their steps take some seconds.
UNITS = 40_000
WORDS = json.loads((ROOT / 'web' / 'texts.en.json').read_text(encoding='utf-8'))
# The steps that a person has to tick, since a voter sees another ballot after them.
TICKED = {'municipal.raw.json': ['gone-candidates']}


def run(session):
    words(session)
    exports = {path.name: path.read_bytes() for path in sorted(EXAMPLES.glob('*.raw.json'))}
    exports.update({f'{name}.raw.json': export() for name, export in vendor_exports.EXPORTS.items()})
    for name, data in exports.items():
        accepted(session, name, data)
    unticked(session)
    two_copies(session)
    alike(session)
    beside_an_accepted_file(session)
    numbers(session)
    not_prepared(session)
    cancelled(session)


def words(session):
    """The page has the words of the packages."""
    found = [(step.name, *(WORDS.get(f'step.{step.name}{part}') for part in ('', '.does', '.loses'))) for step in STEPS]
    session.equal('the words of the steps', found, [(step.name, step.title, step.does, step.loses) for step in STEPS])


class Clicks:
    """Counts clicks."""

    def __init__(self, session):
        self.session = session
        self.count = 0

    def on(self, selector):
        """Clicks where it takes one click."""
        self.count += 1
        self.session.browser.script("document.querySelector(arguments[0]).scrollIntoView({block: 'center'})", selector)
        self.session.click(selector)

    def step(self, selector, index=0):
        """Clicks what shows the steps of a file, and waits until they are shown."""
        shown = f"return document.querySelectorAll('.preparing')[{index}]?.dataset.shown"
        before = self.session.browser.script(shown)
        self.on(selector)
        self.session.browser.until(f"{shown} !== '{before}'")


def marked(prepared, name, data, done):
    """The copy as the page writes it: its notes say where it comes from."""
    steps = ', '.join(f'{it.name} {it.count}' for it in done if it.count)
    line = f'Prepared by erd from {json.dumps(name, ensure_ascii=False)} (SHA-256 {sha256(data)}): {steps}.'
    text = prepared.decode('utf-8')
    report = json.loads(text)
    if 'Notes' in report:
        old = re.search(r'(?<="Notes":)\s*"(?:[^"\\]|\\.)*"', text)
        return (text[:old.start()] + re.match(r'\s*', old[0])[0] + json.dumps(f'{report["Notes"]}\n{line}', ensure_ascii=False) + text[old.end():]).encode()
    opening = re.match(r'\{(\s*)', text)
    return f'{opening[0]}"Notes": {json.dumps(line, ensure_ascii=False)},{opening[1]}{text[opening.end():]}'.encode()


def begun(session, path):
    """The steps for a file that was chosen."""
    session.judged(path)
    clicks = Clicks(session)
    clicks.step('#prepare-begin-0')
    return clicks


def ticked(session):
    return session.browser.script("return [...document.querySelectorAll('.prepare input:checked')].map((box) => box.dataset.step)")


def accepted(session, name, data):
    """One export."""
    path = session.file(name, data)
    clicks = begun(session, path)
    chosen = steps_of('removed', 'filled-in') + TICKED.get(name, [])
    prepared, done = Preparation(data).prepare(chosen)
    for step in TICKED.get(name, []):
        clicks.step(f'#step-0-{step}')
    session.becomes(f'{name}: the steps that are ticked', lambda: sorted(ticked(session)), sorted(chosen_steps(done)))
    session.equal(f'{name}: no step that a voter sees is ticked by itself', [step for step in ticked(session) if step in steps_of('visible')],
                  TICKED.get(name, []))
    previewed(session, name, done)
    prepared = marked(prepared, name, data, done)
    clicks.on('#prepare-check-0')
    session.becomes(f'{name}: the copy', session.verdict, 'Accepted')
    copy = f'{name.removesuffix(".raw.json")}.prepared.json'
    saved(session, copy, clicks)
    session.equal(f'{name}: the saved copy', sha256(session.downloaded(copy)), sha256(prepared))
    session.said(f'{name}: at most {MOST_CLICKS} clicks', '' if clicks.count <= MOST_CLICKS else f'{clicks.count} clicks')
    session.equal(f'{name}: its name', session.text('#name-0 bdi'), copy)
    session.becomes(f'{name}: the sums in the record', lambda: [session.text(f'.record .sum[data-sum="{kind}"]') for kind in ('original', 'file')],
                    [sha256(data), sha256(prepared)])
    session.equal(f'{name}: the steps in the record', session.texts('.record .steps-done li'), told(done))
    session.equal(f'{name}: the file stays', path.read_bytes(), data)


def chosen_steps(done):
    """The names of what was done but for the numbers that are written in another way, which no step does."""
    return [it.name for it in done if it.name != 'numbers']


def told(done):
    """What the page writes of the steps that were done."""
    return [f'{WORDS["step." + it.name]} ({it.count:,})' for it in done]


def saved(session, name, clicks):
    """Saves the copy. What was saved under the name before is gone."""
    (session.work / 'downloads' / name).unlink(missing_ok=True)
    clicks.on('.save-copy')


def previewed(session, name, done):
    """Each step shows its first changes, with the value before and after."""
    counts = session.browser.script("return [...document.querySelectorAll('.prepare details[data-preview]')].map((one) => one.dataset.preview)")
    session.equal(f'{name}: what can be looked at', sorted(chosen_steps(done)), sorted(set(counts) & {it.name for it in done}))
    first = done[-1]
    told = first.told()['changes'][0]
    session.browser.script("document.querySelectorAll('.prepare details').forEach((one) => { one.open = true; })")
    place = f'.prepare details[data-preview="{first.name}"] li'
    session.equal(f'{name}: a place', session.text(f'{place} .pointer'), told['pointer'])
    shown = [WORDS['prepare.absent'] if text is None else text if len(text) <= 200 else text[:200] + '…' for text in (told['before'], told['after'])]
    session.equal(f'{name}: before and after', session.texts(f'{place}:first-child dd'), shown)


def unticked(session):
    """A step that is taken back is not done, although it would change something, and the others tell what they do without it."""
    path = EXAMPLES / 'county-general.raw.json'
    clicks = begun(session, path)
    clicks.step('#step-0-names')
    session.becomes('the focus stays', lambda: session.browser.script('return document.activeElement.id'), 'step-0-names')
    names = [step for step in steps_of('removed', 'filled-in') if step != 'names']
    clicks.on('#prepare-check-0')
    session.becomes('a copy without identifiers', session.verdict, 'Refused: 57 faults')
    prepared, done = Preparation(path.read_bytes()).prepare(names)
    session.equal('its steps', session.texts('.prepared-copy .steps-done li'), told(done))
    session.becomes('its steps in the record', lambda: session.texts('.record .steps-done li'), told(done))
    saved(session, 'county-general.prepared.json', clicks)
    session.equal('it is saved as it was judged', sha256(session.downloaded('county-general.prepared.json')),
                  sha256(marked(prepared, path.name, path.read_bytes(), done)))


def two_copies(session):
    """Both files of a comparison, prepared in the same way."""
    path = EXAMPLES / 'state-primary.raw.json'
    session.judged(path, session.file('other.json', path.read_bytes().replace(b'Adela Whitlock', b'Adele Whitlock')))
    clicks = Clicks(session)
    for index, verdict in ((0, WORDS['verdict.notCompared']), (1, WORDS['verdict.different'])):
        clicks.step(f'#prepare-begin-{index}')
        session.browser.script("document.getElementById('verdict').remove()")
        clicks.on(f'#prepare-check-{index}')
        session.becomes(f'after copy {index + 1}', session.verdict, verdict)
    session.equal('both are told', len(session.texts('.prepared-copy')), 2)


def alike(session):
    """Both files, prepared by one choice of steps and compared."""
    path = EXAMPLES / 'state-primary.raw.json'
    session.judged(path, session.file('other.json', path.read_bytes().replace(b'Adela Whitlock', b'Adele Whitlock')))
    both(session, 'both files', 'verdict.different')
    session.equal('both files: both are told', [text.split(':')[0] for text in session.texts('.prepared-copy p:first-child')],
                  [WORDS['prepare.copyOf'].split(':')[0].replace('{name}', name) for name in (path.name, 'other.json')])


def beside_an_accepted_file(session):
    """A file that no step changes stays as it is."""
    path = EXAMPLES / 'county-general.raw.json'
    prepared, _ = Preparation(path.read_bytes()).prepare(steps_of('removed', 'filled-in'))
    session.judged(path, session.file('sent.json', prepared))
    both(session, 'beside an accepted file', 'verdict.same')
    session.equal('beside an accepted file: one copy', len(session.texts('.prepared-copy')), 1)
    session.equal('beside an accepted file: the files', [session.text(f'#name-{side} bdi') for side in (0, 1)],
                  ['county-general.prepared.json', 'sent.json'])


def both(session, case, verdict):
    """Prepares both files by the steps that are ticked."""
    clicks = Clicks(session)
    clicks.step('#prepare-begin-0')
    session.browser.script("document.getElementById('verdict').remove()")
    clicks.on('#prepare-both-0')
    session.becomes(f'{case}: the verdict', session.verdict, WORDS[verdict])


def numbers(session):
    """Numbers that the copy has in another form are told by their lines, and so is in the record that there are some."""
    session.judged(session.file('numbers.json', '{"@type":"ElectionResults.ElectionReport",\n "X": 1.50, "Y": null}'))
    clicks = Clicks(session)
    clicks.step('#prepare-begin-0')
    session.equal('numbers: how many', session.text('.prepare .numbers summary'), WORDS['prepare.numbers']['one'].replace('{count}', '1'))
    session.browser.script("document.querySelector('.prepare .numbers').open = true")
    where = WORDS['prepare.numbers.where'].replace('{line}', '2').replace('{column}', '7')
    session.equal('numbers: where', session.texts('.prepare .numbers li'), [f'{where} 1.50 → 1.5'])
    session.equal('numbers: no step does it', ticked(session), ['nulls'])
    session.browser.script("document.getElementById('verdict').remove()")
    clicks.on('#prepare-check-0')
    session.becomes('numbers: in the record', lambda: session.texts('.record .steps-done li'),
                    [f'{WORDS["step.numbers"]} (1)', f'{WORDS["step.nulls"]} (1)'])


def not_prepared(session):
    """What no step can fix, and what is no file for a step."""
    session.judged(session.file('mark.json', b'\xef\xbb\xbf{"a":'))
    session.click('#prepare-begin-0')
    session.becomes('a mark before what is not JSON', lambda: session.text('.preparing'), WORDS['prepare.notJson'])
    session.judged(session.file('number.json', b'5'))
    session.click('#prepare-begin-0')
    session.becomes('a file without a report', lambda: session.text('.preparing'), WORDS['prepare.none'])
    session.judged(session.file('cut.json', b'{"a":'))
    session.equal('nothing to prepare', session.texts('.prepare'), [])
    named = {'@type': 'ElectionResults.ElectionReport', '<b>&"\u202e': None, 'Election': []}
    session.judged(session.file('names.json', json.dumps(named)))
    session.click('#prepare-begin-0')
    session.becomes('untrusted names are texts', lambda: session.texts('.prepare .pointer b'), [])


# Whether a reader sees how far something is, and a button that ends it.
IN_VIEW = """
    const isInView = (one) => {
        const { top, bottom, height } = one.getBoundingClientRect();
        return height > 0 && top >= 0 && bottom <= innerHeight;
    };
    return [...document.querySelectorAll('progress')].some(isInView)
        && [...document.querySelectorAll('button')].some((one) => one.textContent === arguments[0] && isInView(one));"""


def long_export(session):
    """A large file for which there are so many steps that a reader scrolls through them: an export with many units."""
    made = json.loads((EXAMPLES / 'state-primary.raw.json').read_text(encoding='utf-8'))
    units = json.loads(report_of_units(session.work / 'units.json', UNITS).read_text(encoding='utf-8'))['GpUnit']
    made['GpUnit'] += [unit | {'IsMailOnly': None} for unit in units]
    return session.file('long.json', json.dumps(made))


def cancelled(session):
    """A large file: its steps are told as they are done, and can be cancelled and begun again. The verdict stays."""
    path = long_export(session)
    session.judged(path)
    verdict = session.text('#verdict')
    session.click('#prepare-begin-0')
    session.browser.until('return document.body.innerText.includes(arguments[0])', WORDS['progress.preparing'].replace('{name}', 'long.json'))
    session.said('a large file: what is done is told', '')
    session.equal('a large file: how far it is, in view with a way to cancel it', session.browser.script(IN_VIEW, WORDS['progress.cancel']), True)
    session.browser.script("document.querySelector('.prepare-progress button').click()")
    session.becomes('a large file: cancelled', lambda: session.text('.preparing > p'), WORDS['trouble.cancelled'])
    session.equal('a large file: the verdict stays', session.text('#verdict'), verdict)
    session.click('#prepare-begin-0')
    session.becomes('a large file: begun again', lambda: 'nulls' in ticked(session), True, seconds=200)
    session.equal('a large file: nothing is left of its progress', session.texts('.prepare-progress'), [])
    session.browser.resize(375, 667)
    session.browser.script("const box = [...document.querySelectorAll('.prepare input')].at(-1); box.scrollIntoView({block: 'center'}); box.click()")
    session.said('a large file: a tick far below shows its progress, and how to cancel it', '' if session.browser.until(
        IN_VIEW, WORDS['progress.cancel'], seconds=10) else 'it is out of view')
    session.browser.script("document.querySelector('.prepare-progress button').click()")
