"""What is filed is what was found: the passage that differs, how many rows there are more, first what a voter sees, and of each file its
election, its envelope and whether it is a prepared copy."""
import base64
import json
import re
import shutil

import answers
from flows import pages_of
from made import identified, listed, measure, report, style, typed, written
from printed import texts_of
from session import EXAMPLES, sha256

TEXT = ' '.join(f'Word {number} of the measure.' for number in range(40))
DT = "return [...document.querySelectorAll('.record dl > div')].map((row) => [row.querySelector('dt').textContent, row.querySelector('dd')?.textContent ?? ''])"


def made(middle='five', title='Measure 2', name='Ward', count=0, **members):
    """A measure with a long text in whose middle a word differs, and so many more units."""
    one = report([measure('M', title, FullText=f'{TEXT} The rate is {middle} percent. {TEXT}')], [style('BS-1', [listed('M: Yes No')])])
    one['GpUnit'] += [typed('ReportingUnit', id=f'u-{number}', ExternalIdentifier=identified(f'N{number:03}'), Type='precinct', Name=f'{name} {number}')
                      for number in range(count)]
    return one | members


def run(session):
    passage(session)
    rows(session)
    order(session)
    identity(session)
    on_paper(session)
    copies(session)


def passage(session):
    """Of a long text the record has the words that differ."""
    session.judged(written(session, 'left.json', made()), written(session, 'right.json', made('nine')))
    line = session.text('[data-filed] li > div')
    session.said('filed: the passage that differs', '' if 'five' in line and 'nine' in line and len(line) < 600 else line)


def rows(session):
    """More rows than the record has: it says how many more."""
    units = ['East', 'West', 'North', 'South', 'Hill', 'Lake']
    pair = [report([measure('M', 'Measure 2')], [style('BS-1', [listed('M: Yes No')], *names)], units) for names in (
        ('gp-1',), tuple(f'gp-{number}' for number in range(1, 7)))]
    session.judged(*(written(session, f'{side}.json', one) for side, one in zip(('left', 'right'), pair)))
    lines = session.texts('[data-filed] li > div')
    session.equal('filed: how many rows there are more', [len(lines), lines[-1]], [4, answers.say('difference.moreLines', count=2)])


def order(session):
    """Of many differences those come first that ballots tell, each with its number in the proved list."""
    left, right = made(count=120), made(title='Measure 3', name='Precinct', count=120)
    for unit in right['GpUnit'][1:]:
        unit['IsDistricted'] = True
    session.judged(written(session, 'left.json', left), written(session, 'right.json', right))
    session.has('filed: first what ballots tell', session.text('[data-filed] li'), 'Measure 2')
    session.equal('filed: with its number', session.browser.script("return document.querySelector('[data-filed] li').value"), 241)
    session.equal('filed: how many more', session.texts('[data-filed] > p'), [answers.say('record.order'), answers.say('record.more', count=141)])


def identity(session):
    """The record says whether the ballots differ, and of each file its election, its day, its envelope and its notes. Signatures are never
    alone on a page."""
    session.judged(written(session, 'left.json', made(count=40, Notes='Struck by court order', IsTest=True, TestType='logic')),
                   written(session, 'right.json', made('nine', name='Precinct', count=40, IsTest=True, TestType='logic')))
    lines = session.browser.script(DT)
    session.equal('filed: what a voter sees', [line for line in lines if line[0] == answers.say('record.seen')],
                  [[answers.say('record.seen'), answers.say('seen.differ', differing=1, all=1)]])
    session.equal('filed: the elections', [line[1] for line in lines if line[0] == answers.say('record.election')], 2 * ['Test, 2026-11-03'])
    session.equal('filed: the marks of a test', [line[1] for line in lines if line[0] == answers.say('record.test')], 2 * [answers.say('record.isTest')])
    envelopes = [line[1] for line in lines if line[0] == answers.say('record.envelope')]
    session.said('filed: the envelopes', '' if len(envelopes) == 2 and 'Issuer: Vendor' in envelopes[1] and 'Notes: Struck by court order' in envelopes[0] else repr(envelopes))
    pdf = base64.b64decode(session.browser.command('print'))
    session.said('filed: several pages', '' if pages_of(pdf) > 1 else f'{pages_of(pdf)} page')
    if shutil.which('pdftotext') is None:
        print('skipped the printed record: not installed: poppler-utils')
    else:
        paper(session, texts_of(session.file('record.pdf', pdf)))


def paper(session, pages):
    """What is signed stands with the signatures: the verdict, and each file with its sum. Chromium numbers the pages as the record asks for; the
    other browsers do so by themselves, in the dialogue of print."""
    last = re.sub(r'\s+', ' ', pages[-1])
    wanted = [answers.say('verdict.different'), *(f'{label} file: {name} SHA-256 {sha256((session.work / name).read_bytes())}' for label, name in (
        ('First', 'left.json'), ('Second', 'right.json'))), answers.say('record.signature')]
    session.equal('filed: what is signed stands where it is signed', [words for words in wanted if words not in last], [])
    if session.browser.name == 'Chromium':
        session.equal('filed: the pages are numbered', [re.sub(r'\s', '', text.rstrip().rpartition('\n')[2]) for text in pages],
                      [f'{number}/{len(pages)}' for number in range(1, len(pages) + 1)])


def on_paper(session):
    """What the button "Print this record" brings onto paper, read from the PDF: all that two offices have to know. The words are by hand, and
    the sums are those of the bytes and of the reference program."""
    if shutil.which('pdftotext') is None:
        return
    paths = [written(session, 'left.json', made(Notes='Struck by court order')), written(session, 'right.json', made('nine', IsTest=True, TestType='logic'))]
    session.judged(*paths)
    paper = without_blanks(recorded(session))
    forms = [answers.Answer(answers.Program(), path, None).form_sum for path in paths]
    for what, words in {
            'the verdict': ['These two files do not say the same'], 'what a voter sees': ['The ballots differ'], 'the files': ['left.json', 'right.json'],
            'the sums of the files': [sha256(path.read_bytes()) for path in paths], 'the sums of the forms': forms,
            'the election': ['Test, 2026-11-03'], 'the mark of a test': ['a test'], 'the notes': ['Struck by court order'],
            'the differences': ['Measure 2', 'differs in its full text (FullText)', 'The rate is five percent', 'The rate is nine percent',
                                'mark of a test (IsTest)', 'type of test (TestType)'],
            'what is proved': ['Proved: the verdict', 'Not proved'], 'where to sign': ['Office', 'Name', 'Signature']}.items():
        session.equal(f'paper: {what}', [word for word in words if ''.join(word.split()) not in paper], [])
    session.judged(session.file('refused.json', json.dumps(made() | {'Status': 'certified', 'Odd': [1.5]})))
    paper = without_blanks(recorded(session))
    wanted = ['Refused: 2 faults', 'refused.json', '/Odd/0: not a whole number', '/Status: not pre-election', 'Signature']
    session.equal('paper: a refused file with its faults', [word for word in wanted if ''.join(word.split()) not in paper], [])


def recorded(session):
    """The text of what the button of the record prints."""
    session.browser.script("window.print = () => { window.printed = true; }")
    session.browser.script("document.querySelector('.record .buttons button').click()")
    session.browser.until('return window.printed')
    return ' '.join(texts_of(session.file('record.pdf', base64.b64decode(session.browser.command('print'))), order='-raw'))


def without_blanks(text):
    """A text without its blanks: a line of paper may end anywhere."""
    return re.sub(r'\s', '', text)


def copies(session):
    """A copy that was prepared says so when it is opened again, with the sum of its file, and its notes differ in nothing else."""
    path = EXAMPLES / 'state-primary.raw.json'
    session.judged(path)
    session.click('#prepare-begin-0')
    session.browser.until("return document.querySelector('#prepare-check-0') !== null")
    session.browser.script("document.getElementById('verdict').remove(); document.querySelector('#prepare-check-0').click()")
    session.equal('filed: a copy', session.verdict(), 'Accepted')
    name = 'state-primary.prepared.json'
    (session.work / 'downloads' / name).unlink(missing_ok=True)
    steps = session.texts('.prepared-copy .steps-done li')
    session.browser.script("document.querySelector('.save-copy').click()")
    data = session.downloaded(name)
    again = session.file(name, data)
    session.judged(again)
    session.equal('filed: the copy, opened again', session.texts('.prepared-copy .steps-done li'), steps)
    session.has('filed: its file', session.text('.prepared-copy p'), path.name)
    session.becomes('filed: the sum of its file, in the record', lambda: session.text('.record .sum[data-sum="original"]'), sha256(path.read_bytes()))
    session.judged(again, session.file('plain.json', json.dumps({key: value for key, value in json.loads(data).items() if key != 'Notes'})))
    session.equal('filed: the mark is no note that differs', session.texts('.notice h3'), [])
