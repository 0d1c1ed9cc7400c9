"""From two exports to an answer by the page alone: each of nine exports beside that of another vendor, which has its own system names
and another order wherever order says nothing. Both are prepared by the same steps, and compared. What no step fixes has a sentence for
a letter to the vendor. Files that are no report are called what they are."""
import json
import random

from prepared import TICKED, Clicks
from session import EXAMPLES, ROOT
import exports
import harder_exports
import vendor_exports

WORDS = json.loads((ROOT / 'web' / 'texts.en.json').read_text(encoding='utf-8'))
MARK = b'\xef\xbb\xbf'
# The reasons of what is left after the steps, which only the vendor can fix.
LEFT = {'one-name': [13], 'vendor-faults': [2, 5]}
# Which steps may fix a fault of each of these reasons, if any can: docs/FIXES.md has them.
STEPS = {2: ['class-names'], 5: ['outside', 'counts'], 8: [], 13: ['town-codes', 'county-codes', 'shared-codes', 'write-in-candidates', 'codes']}


def run(session):
    raw = {path.name.removesuffix('.raw.json'): path.read_bytes() for path in sorted(EXAMPLES.glob('*.raw.json'))}
    raw.update({name: export() for name, export in (*vendor_exports.EXPORTS.items(), *harder_exports.EXPORTS.items())})
    for number, (name, data) in enumerate(raw.items()):
        compared(session, name, data, number)
    other_files(session)


def by_another_vendor(data, dice, is_changed):
    """The export as another vendor would write it: with its own system names and another order. It may have another candidate too."""
    report = exports.rearranged(json.loads(data.removeprefix(MARK)), dice)
    if is_changed:
        unit = next(unit for unit in report['GpUnit'] if 'Name' in unit)
        unit['Name'] = 'Quite Another Place'
    return json.dumps(report, ensure_ascii=False).encode()


def compared(session, name, data, number):
    """One export, and that of another vendor. Each third one differs."""
    is_changed = number % 3 == 2
    other = by_another_vendor(data, random.Random(number), is_changed)
    session.judged(session.file(f'{name}.raw.json', data), session.file(f'{name}.other.json', other))
    for index in range(2):
        copied(session, name, index)
    if name in LEFT:
        session.becomes(f'{name}: both are prepared, and refused', session.verdict, WORDS['verdict.notCompared'])
        remedies(session, name)
    else:
        session.becomes(f'{name}: the two copies', session.verdict, WORDS['verdict.different' if is_changed else 'verdict.same'])


def copied(session, name, index):
    """Prepares a copy of a file by the steps that the page proposes, and by those that a person has to tick."""
    clicks = Clicks(session)
    place = session.browser.script("""return [...document.querySelectorAll('.preparing')].findIndex(
        (one) => one.querySelector(arguments[0]) !== null)""", f'#prepare-begin-{index}')
    clicks.step(f'#prepare-begin-{index}', place)
    for step in TICKED.get(f'{name}.raw.json', []):
        clicks.step(f'#step-{index}-{step}', place)
    session.browser.script("document.getElementById('verdict').remove()")
    clicks.on(f'#prepare-check-{index}')
    session.verdict()


def remedies(session, name):
    """Each kind of fault that is left has the steps that may fix it, or that none can, and a sentence for the vendor."""
    for reason in LEFT[name]:
        card = f'.card[data-reason="{reason}"] .remedy'
        steps = ' · '.join(WORDS[f'step.{step}'] for step in STEPS[reason])
        said = WORDS['faults.steps'].replace('{steps}', steps) if steps else WORDS['faults.noStep']
        session.equal(f'{name}: what may fix reason {reason}', session.text(f'{card} p'), said)
        session.equal(f'{name}: what to ask the vendor for reason {reason}', session.text(f'{card} q'), WORDS[f'letter.{reason}'])


def other_files(session):
    """Files that are JSON, and no report from before an election. No copy is offered of one that is no ElectionReport."""
    package = {'name': 'erd', 'version': '1.0.0', 'private': None}
    votes = {'@type': 'CVR.CastVoteRecordReport', 'Version': '1.0.0', 'CVR': [], 'Election': [], 'GpUnit': []}
    other = {'@type': 'BallotDefinition.BallotDefinition', 'Election': [], 'GpUnit': []}
    for name, report, key in (('package.json', package, 'noReport'), ('votes.json', votes, 'castVotes'), ('sp1500-20.json', other, 'ballotDefinition')):
        session.judged(session.file(name, json.dumps(report)))
        session.has(f'{name}: what it is', session.text('.banner'), WORDS[f'sentence.{key}'])
        session.equal(f'{name}: no copy is offered', session.texts('.prepare'), [])
    after = json.loads((EXAMPLES / 'small-ballot.json').read_text(encoding='utf-8')) | {'Status': 'certified'}
    session.judged(session.file('after.json', json.dumps(after)))
    session.has('a report after the election: what it is', session.text('.banner'), WORDS['sentence.afterElection'].replace('{status}', 'certified'))
    session.equal('a report after the election: no step', session.text('.card[data-reason="8"] .remedy p'), WORDS['faults.noStep'])
    lacking = {name: value for name, value in after.items() if name != '@type'} | {'Status': 'pre-election'}
    session.judged(session.file('lacking.json', json.dumps(lacking)))
    session.equal('a report without its class may be prepared', len(session.texts('.prepare')), 1)
