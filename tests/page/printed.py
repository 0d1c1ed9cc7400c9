"""The printed ballots, as a reader of paper has them: the text of each page is read from the PDF that the browser makes."""
import base64
import re
import shutil
import subprocess
import unicodedata

import answers
from made import candidate_contest, identified, measure, report, style, typed, written
from session import COUNTY, sha256

WORDS = [f'w{number:04}' for number in range(2400)]
COUNT = 40
ON_SECOND = 3
# Where the columns stand on a sheet, in points: a margin of 10 mm, and two columns of 90 mm with 6 mm between them.
COLUMNS = ((26, 262), (298, 262))


def run(session):
    if shutil.which('pdftotext') is None:
        print('skipped the printed ballots: not installed: poppler-utils')
        return
    sheets(session)
    languages(session)
    pairs(session)
    words(session)


def texts(**languages):
    """A label in these languages."""
    return typed('InternationalizedText', Text=[typed('LanguageString', Content=text, Language=language) for language, text in languages.items()])


def ballots(**changes):
    """Two ballots with a header before each contest, so that one would stand at the foot of a column soon; one long text is on the first."""
    contests = [candidate_contest(f'C{number}', f'Office {number}', *(f'N{number}-{one}' for one in range(number % 5 + 1))) for number in range(COUNT)]
    contests[0][0].update(BallotTitle=texts(en='Sheriff', es='Alguacil'), HasRotation=True, **changes)
    contests[0][1][0].update(PersonId='p-1', IsIncumbent=True)
    ranked, candidates = candidate_contest('R', 'Mayor', 'Cy', 'Di', VoteVariation='rcv', BallotTitle=texts(en='Mayor', es='Alcalde'))
    bond, _ = measure('M', 'Bond', BallotTitle=texts(en='Roof Bond'), FullText=' '.join(WORDS))
    contests += [(ranked, candidates), (bond, [])]
    headers = [typed('Header', id=f'h-{number}', ExternalIdentifier=identified(f'H{number}'), Name=f'Heading {number}') for number in range(COUNT)]
    content = [typed('OrderedHeader', HeaderId=f'h-{number}', OrderedContent=[typed('OrderedContest', ContestId=f'C{number}')]) for number in range(COUNT)]
    content[3:3] = [typed('OrderedContest', ContestId='R'), typed('OrderedContest', ContestId='M')]
    person = typed('Person', id='p-1', ExternalIdentifier=identified('P1'), FullName='Ann Ash', Profession=texts(en='Teacher', es='Maestra'))
    return report(contests, [style('BS-1', content, 'gp-1', 'gp-2'), style('BS-2', content[5:5 + ON_SECOND], 'gp-3')], ['East', 'West', 'North'],
                  Header=headers, Person=[person])


def pages(session, lang='', *paths):
    """The texts of the pages on which all ballots of the files are printed."""
    session.judged(*paths)
    session.browser.script("document.getElementById('ballots').open = true")
    session.browser.until("return document.querySelector('#ballots .controls button') !== null")
    if lang:
        session.browser.script("const box = document.getElementById('ballot-language'); box.value = arguments[0]; box.dispatchEvent(new Event('change'))", lang)
    session.browser.script('window.print = () => { window.printed = true; }')
    session.browser.script("[...document.querySelectorAll('#ballots .controls button')].at(-1).click()")
    session.browser.until('return window.printed')
    pdf = session.file('printed.pdf', base64.b64decode(session.browser.command('print')))
    return pdf, texts_of(pdf)


def texts_of(pdf, *words, order='-layout'):
    """The text of each page, as it is laid out or, with -raw, in the order in which it is read."""
    found = subprocess.run(['pdftotext', order, *words, pdf, '-'], capture_output=True, check=True).stdout.decode()
    return unicodedata.normalize('NFKC', found).split('\f')[:-1]


def sheets(session):
    """Each sheet says what it is of. A ballot stands in two columns, none of which ends with a header or a title."""
    path = written(session, 'ballots.json', ballots())
    pdf, found = pages(session, '', path)
    heads = [re.search(r'(BS-\d) sheet (\d+) of (\d+)', text) for text in found]
    counts = {code: sum(head is not None and head[1] == code for head in heads) for code in ('BS-1', 'BS-2')}
    session.equal('printed: which sheet of how many', [head and head.groups() for head in heads],
                  [(code, str(number), str(count)) for code, count in counts.items() for number in range(1, count + 1)])
    session.said('printed: the first ballot has several sheets', '' if counts['BS-1'] > 3 else f'{counts}')
    for what, wanted in (('file', 'File: ballots.json'), ('sum', sha256(path.read_bytes())), ('languages', 'Languages: English (en), Spanish (es)'),
                         ('foot', 'Not a ballot to vote with')):
        session.equal(f'printed: the {what} on each sheet', [number for number, text in enumerate(found, 1) if wanted not in text], [])
    session.equal('printed: the precincts on each sheet', [re.search(r'For: (.*)', text)[1].strip() for text in found],
                  ['East, West'] * counts['BS-1'] + ['North'] * counts['BS-2'])
    columns = [texts_of(pdf, '-x', str(x), '-y', '0', '-W', str(width), '-H', '842') for x, width in COLUMNS]
    session.said('printed: two columns', '' if all(re.search(r'w\d{4}|N\d+-\d', text) for text in columns[1][:counts['BS-1'] - 1]) else columns[1][0])
    lasts = [last_line(text) for side in columns for text in side]
    session.equal('printed: no header or title at a foot', [line for line in lasts if re.match(r'(Heading|Office|Vote for)\b', line)], [])
    whole = ' '.join(found)
    session.equal('printed: each contest', [name for name in (f'Heading {number}' for number in range(COUNT)) if not re.search(name + r'\b', whole)], [])
    text = ' '.join(columns[side][at] for at in range(counts['BS-1']) for side in (0, 1))
    session.equal('printed: a long text is whole, and in its order', re.findall(r'w\d{4}', text), WORDS)
    session.has('printed: where a contest goes on', whole, 'Roof Bond (continued)')
    session.has('printed: what a title lacks stands right below it', re.sub(r'\s+', ' ', text), f'Office 1 {answers.say("ballot.titleInNone")} Vote for 1')


def last_line(text):
    """The last line of a column above the foot of the sheet."""
    lines = [line.strip() for line in re.split(r'\n\s*Not a ballot', text)[0].splitlines() if line.strip()]
    return lines[-1] if lines else ''


def words(session):
    """What the file says of rotation, of who is in office and of what they do, and how choices are ranked, on the screen and on paper."""
    whole = re.sub(r'\s+', ' ', ' '.join(pages(session, '', written(session, 'ballots.json', ballots()))[1]))
    for text in (answers.say('ballot.incumbent'), 'Teacher', 'Maestra', 'Ranked choice', 'No title in Spanish (es)'):
        session.has(f'printed: {text}', whole, text)
    session.has('printed: rotation', whole, 'change places from')
    session.equal('printed: a ranked choice is no vote for one', whole.count('Vote for 1'), COUNT + ON_SECOND)
    session.browser.script("document.querySelector('.style').open = true")
    session.browser.until("return document.querySelector('.style .ballot') !== null")
    lacking = session.texts('.style .ballot .contest:has(.line-title > .text[lang]) .lacking')
    session.equal('ballots: titles that lack a language', lacking, [answers.say('ballot.untitled', language='Spanish (es)')])
    ways = [text for text in session.texts('.style .ballot .contest .line-variation') if 'rank' in text.lower()]
    session.equal('ballots: a ranked choice', ways, [answers.say('ballot.way.rcv')])


def languages(session):
    """One language alone."""
    _, found = pages(session, 'es', written(session, 'ballots.json', ballots()))
    whole = ' '.join(found)
    session.equal('printed: the language on each sheet', [number for number, text in enumerate(found, 1) if 'Language: Spanish (es)' not in text], [])
    session.equal('printed: one language alone', [word for word in ('Alguacil', 'Maestra', 'Sheriff', 'Teacher') if word in whole], ['Alguacil', 'Maestra'])
    session.has('printed: a title that is not in it', whole, 'No title in Spanish (es)')


def pairs(session):
    """Of two files the ballots that differ; the others are named."""
    paths = [written(session, 'left.json', ballots()), written(session, 'right.json', ballots(VotesAllowed=2))]
    _, found = pages(session, '', *paths)
    heads = [re.search(r'(?:(BS-1) |are the same )sheet (\d+) of (\d+)', text) for text in found]
    session.equal('printed: of two files those that differ', [head is not None and head[1] for head in heads], ['BS-1'] * (len(found) - 1) + [None])
    session.equal('printed: both files and sums on each sheet', [number for number, text in enumerate(found, 1) if not all(
        f'{label} file: {path.name}' in text and sha256(path.read_bytes()) in text for label, path in zip(('First', 'Second'), paths))], [])
    session.has('printed: that a ballot differs', found[0], answers.say('ballots.mark.changed'))
    session.has('printed: those that are the same', re.sub(r'\s+', ' ', found[-1]), answers.say('sheet.notPrinted', count=1) + ' local-level BS-2 North')
    _, found = pages(session, '', *COUNTY)
    session.equal('printed: where no ballot differs, their names', [len(found), re.findall(r'BS-\d', found[0])], [1, ['BS-1', 'BS-2', 'BS-3', 'BS-4']])
