"""The record: sums that are copied whole, their codes for the phone, and what is filed of differences and faults."""
import json

from session import COUNTY, EXAMPLES, ROOT, SMALL, SUITE, sha256

LETTERS = '0123456789ABCDEFGHJKMNPQRSTVWXYZ'

# What a copy of a selected sum puts on the clipboard.
SELECTED = """
    getSelection().selectAllChildren(document.querySelector(arguments[0]));
    const text = getSelection().toString();
    getSelection().removeAllRanges();
    return text;"""


def run(session):
    sums(session)
    codes(session)
    filed_differences(session)
    filed_faults(session)
    filed_look_alikes(session)


def sums(session):
    """A sum has 64 digits, by the button and by the selection."""
    session.judged(SMALL)
    wanted = sha256((EXAMPLES / 'small-ballot.canonical.json').read_bytes())
    session.equal('record: a sum that is selected', session.browser.script(SELECTED, '.sum[data-sum="form"]'), wanted)
    session.browser.script("navigator.clipboard.writeText = async (text) => { window.copied = text; }")
    session.browser.script("document.querySelector('.sum[data-sum=\"form\"] ~ .copy').click()")
    session.becomes('record: a sum that is copied', lambda: session.browser.script('return window.copied ?? null'), wanted)
    session.becomes('record: it says so', lambda: session.text('.sum[data-sum="form"] ~ .copied'), 'Copied')


def codes(session):
    """The code of a canonical form is its first 80 bits, and equal forms have equal codes."""
    session.judged(*COUNTY)
    bits = int(sha256((EXAMPLES / 'county.canonical.json').read_bytes())[:20], 16)
    code = ''.join(LETTERS[bits >> 75 - 5 * place & 31] for place in range(16))
    session.equal('record: the codes', session.texts('.spoken code'), 2 * [' '.join(code[at:at + 4] for at in range(0, 16, 4))])


def filed_differences(session):
    """The record has the first hundred differences, with their values, and says how many more there are."""
    report = json.loads(SMALL.read_text(encoding='utf-8'))
    unit = report['GpUnit'][0]

    def with_units(name):
        more = [unit | {'@id': 'u%d' % number, 'Name': '%s %d' % (name, number),
                        'ExternalIdentifier': [unit['ExternalIdentifier'][0] | {'Value': 'N%03d' % number}]} for number in range(120)]
        return session.file(name + '.json', json.dumps(report | {'GpUnit': report['GpUnit'] + more}))

    session.judged(with_units('Ward'), with_units('Precinct'))
    session.equal('record: the differences', len(session.texts('[data-filed] li')), 100)
    session.equal('record: the first one', session.text('[data-filed] li'),
                  'Unit “Ward 0” (local-level N000) differs in its name (Name).“Ward 0” / “Precinct 0”')
    session.equal('record: how many more', session.texts('[data-filed] > p')[-1], 'and 20 more')
    session.equal('record: none of it on the screen', session.browser.script("return document.querySelector('.filed').checkVisibility()"), False)


def filed_faults(session):
    """The record has the faults as the program writes them."""
    case = SUITE / 'shape-faults-of-the-whole-first-phase'
    session.judged(case / 'input.json')
    session.equal('record: the faults', session.texts('[data-filed] li'), (case / 'check.txt').read_text(encoding='utf-8').splitlines()[:100])


def filed_look_alikes(session):
    """Two names that look alike are filed with the reason why they differ."""
    text = SMALL.read_text(encoding='utf-8')
    session.judged(SMALL, session.file('alike.json', text.replace('"BallotName":"Ann"', '"BallotName":"\u0410nn"')))
    wanted = json.loads((ROOT / 'web' / 'texts.en.json').read_text(encoding='utf-8'))['alike.letters']
    session.equal('record: names that look alike', session.texts('[data-filed] li div'), ['“Ann” / “\u0410nn”', wanted])
