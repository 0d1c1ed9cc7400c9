"""What a user does with a mouse: each flow of the page, with files whose answers are known."""
import base64
import json
import pathlib
import re
import zlib

from session import COUNTY, EXAMPLES, ROOT, SMALL, SUITE, sha256

MOST_BYTES = 67108864


def run(session):
    examples(session)
    one_file(session)
    faults(session)
    two_files(session)
    dropped(session)
    preferred(session)
    refused_texts(session)
    removed(session)
    printed(session)
    licences(session)
    documents(session)


def examples(session):
    """The examples, one click away."""
    wanted = {0: 'These two files define the same ballots', 1: 'These two files do not say the same',
              2: 'Refused: 3 faults'}
    for position, verdict in wanted.items():
        session.fresh()
        session.browser.all('#examples button')[position].click()
        session.becomes('example %d' % (position + 1), session.verdict, verdict)
        if position == 0:
            session.becomes('example 1: the files', lambda: session.texts('.sum[data-sum="file"]'), [sha256(path.read_bytes()) for path in COUNTY])
        if position == 1:
            session.becomes('example 2: what differs', lambda: [text.split(' “')[0].split(' (')[0] for text in session.texts('.differences summary')],
                            ['Candidate', 'Contest', 'Ballot style'])


def one_file(session):
    """An accepted file: the verdict, the sums, and the canonical form as a file."""
    session.equal('an accepted file', session.judged(SMALL), 'Accepted')
    canonical = (EXAMPLES / 'small-ballot.canonical.json').read_bytes()
    session.equal('its sums, and that of the page', session.texts('.sum'),
                  [sha256(SMALL.read_bytes()), sha256(canonical), sha256(pathlib.Path(session.page).read_bytes())])
    session.equal('a screen reader is told', session.text('#announcement'), 'Accepted')
    session.browser.script("document.querySelector('.record .buttons button:last-child').scrollIntoView()")
    session.click('.record .buttons button:last-child')
    session.equal('its canonical form', session.downloaded('small-ballot.canonical.json'), canonical)


def faults(session):
    """A refused file: a card for each kind of fault, with its places in order, and the part of the file."""
    case = SUITE / 'shape-faults-of-the-whole-first-phase'
    lines = (case / 'check.txt').read_text(encoding='utf-8').splitlines()
    session.equal('a refused file', session.judged(case / 'input.json'), 'Refused: %d faults' % len(lines))
    kinds = {}
    for line in lines:
        pointer, words = line.split(': ', 1)
        kinds.setdefault(words.split(' member ')[0], []).append(pointer or 'empty: the report itself')
    session.equal('its kinds of faults', len(session.texts('.card')), len(kinds))
    session.equal('how many places each has', session.texts('.card .count'),
                  ['(%d place%s)' % (len(pointers), '' if len(pointers) == 1 else 's') for pointers in kinds.values()])
    session.equal('its pointers', session.texts('.card .pointer'), [pointer for pointers in kinds.values() for pointer in pointers[:10]])
    session.click('.faults .save button')
    session.equal('the list of faults', session.downloaded('faults.txt'), (case / 'check.txt').read_bytes())
    one_fault = SMALL.read_text(encoding='utf-8').replace('"VotesAllowed":1', '"VotesAllowed":1.5')
    session.judged(session.file('one-fault.json', one_fault))
    session.equal('the part of the file', session.texts('.card mark'), ['"VotesAllowed":1.5'])
    session.equal('the trail', session.texts('.card .trail li'),
                  ['election 1 “Test”', 'contest 1 “Governor”', 'member VotesAllowed'])
    excerpt(session, json.dumps(json.loads(one_fault), indent=2).splitlines())
    more_places(session)


def excerpt(session, lines):
    """The part of a file of many lines: two lines before and after the fault, with their numbers, and without the blanks before all."""
    session.judged(session.file('lines.json', '\n'.join(lines)))
    place = next(number for number, line in enumerate(lines) if '"VotesAllowed": 1.5' in line)
    around = lines[place - 2:place + 3]
    blanks = min(len(line) - len(line.lstrip()) for line in around)
    session.equal('the lines of the part', session.texts('.excerpt .line code'), [line[blanks:] for line in around])
    session.equal('their numbers', session.texts('.excerpt .number'), [str(number) for number in range(place - 1, place + 4)])
    session.equal('what is marked in them', session.texts('.excerpt mark'), ['"VotesAllowed": 1.5'])


def more_places(session):
    """Ten places of a kind are shown, and more where they are asked for."""
    report = json.loads(SMALL.read_text(encoding='utf-8'))
    report['Header'] = [{'Nome': str(number)} for number in range(13)]
    session.judged(session.file('many-faults.json', json.dumps(report)))
    wanted = ['/Header/%d' % number for number in range(13)]
    session.equal('the first places', session.texts('.card:last-child .pointer')[:10], wanted[:10])
    session.equal('how many more', session.text('.card:last-child .places + p button'), 'Show %d more places of %d' % tuple(counts_of_places(session)))
    session.browser.script("document.querySelector('.card:last-child .places + p button').click()")
    session.becomes('all places', lambda: sorted(set(session.texts('.card:last-child .pointer')) & set(wanted)), sorted(wanted))


def counts_of_places(session):
    """How many places of the last kind are not shown, and how many there are."""
    count = int(re.search(r'\d+', session.texts('.card .count')[-1])[0])
    return count - 10, count


def two_files(session):
    """Two files: equal ones, the first difference, and the list of all others."""
    session.fresh()
    session.choose(0, *COUNTY)
    session.becomes('two files at once', session.verdict, 'These two files define the same ballots')
    sums = session.texts('.sum[data-sum="form"]')
    session.equal('their sums', sums, 2 * [sha256((EXAMPLES / 'county.canonical.json').read_bytes())])
    changed = COUNTY[1].read_text(encoding='utf-8')
    for old, new in (('Ingrith Sablewood', 'Ingrid Sablewood'), ('"VotesAllowed":1', '"VotesAllowed":2')):
        changed = changed.replace(old, new)
    verdict = session.judged(COUNTY[0], session.file('changed.json', changed))
    session.equal('two files that differ', verdict, 'These two files do not say the same')
    session.equal('the first difference', session.text('.sentence'),
                  'Candidate “Ingrith Sablewood” (local-level K-12) differs in its name on the ballot (BallotName).')
    session.equal('both values', session.texts('#first-difference ~ div tbody:last-child td div'),
                  ['“Ingrith Sablewood”', '“Ingrid Sablewood”'])
    listed = session.texts('.differences summary')
    session.said('all differences', '' if len(listed) > 1 and listed[0].startswith('Candidate ') and listed[1].startswith('Contest ') else repr(listed))
    session.click('.differences > li:nth-child(2) summary')
    session.becomes('a value of another difference', lambda: session.texts('.differences td div')[:2], ['1', '2'])


DROP = """
    const files = arguments[0].map(({name, data}) => new File([data], name));
    const transfer = new DataTransfer();
    files.forEach((file) => transfer.items.add(file));
    const target = document.querySelector(arguments[1]);
    for (const kind of ['dragover', 'drop']) {
        target.dispatchEvent(new DragEvent(kind, {dataTransfer: transfer, bubbles: true, cancelable: true}));
    }"""


def dropped(session):
    """Files that are dropped on the page, and on one of the two places."""
    files = [{'name': path.name, 'data': path.read_text(encoding='utf-8')} for path in COUNTY]
    session.fresh()
    session.browser.script(DROP, files[:1], 'body')
    session.becomes('one file dropped', session.verdict, 'Accepted')
    session.browser.script(DROP, files[1:], 'body')
    session.becomes('another one dropped', session.verdict, 'These two files define the same ballots')
    session.browser.script(DROP, [{'name': 'x.json', 'data': '{'}], '[data-slot="1"]')
    session.becomes('one dropped on the second place', session.verdict, "These two files can't be compared yet")
    session.equal('it is the second file', session.texts('.slot .name bdi'), [COUNTY[0].name, 'x.json'])
    session.browser.script(DROP, files, 'body')
    session.becomes('two files dropped', session.verdict, 'These two files define the same ballots')
    session.browser.script(DROP, [{'name': 'x.txt', 'data': 'x'}] * 3, 'body')
    session.becomes('three files that are not JSON', lambda: session.text('#announcement'), '0 of 3 are accepted. They have 0 meanings.')


def preferred(session):
    """The preferred type of identifier, out of those that the files have."""
    case = SUITE / 'prefer-key-of-the-preferred-type'
    session.judged(case / 'left.json', case / 'right.json')
    session.equal('without a preference', session.text('.sentence'), 'Unit (fips 20) is in left.json only.')
    session.browser.script("""
        const select = document.getElementById('prefer');
        select.value = 'local-level';
        select.dispatchEvent(new Event('change'));""")
    session.becomes('under the preference', lambda: session.text('.sentence'), 'Unit (local-level U1) differs in its external identifiers (ExternalIdentifier).')
    session.verdict()
    session.equal('the record has the preference', session.texts('.record dd bdi')[-1:], ['local-level'])


def refused_texts(session):
    """Files that are not JSON, and files that are too long or empty."""
    whole = SMALL.read_bytes()
    troubles = {
        'cut short': (whole[:1000], 'The file ends too early.'),
        'byte order mark': (b'\xef\xbb\xbf' + whole, 'The file begins with a byte order mark'),
        'UTF-16': (whole.decode().encode('utf-16'), 'The file is encoded as UTF-16.'),
        'Windows-1252': (whole.replace(b'Governor', b'Gouverneur d\xe9l\xe9gu\xe9'), 'The file has a byte that is not UTF-8.'),
        'a web page': (b'<!DOCTYPE html><title>x</title>', 'This is a web page.'),
        'XML': (b'<?xml version="1.0"?><x/>', 'This is XML'),
        'a picture': (b'\x89PNG\r\n\x1a\n', 'This is a picture.'),
        'a PDF': (b'%PDF-1.7', 'This is a PDF file'),
        'a comma too many': (whole.replace(b'}]', b'},]', 1), 'There is a comma before a closing bracket.'),
        'empty': (b' \n', 'The file is empty.'),
    }
    for name, (data, words) in troubles.items():
        verdict = session.judged(session.file('trouble.json', data))
        session.equal('not JSON: ' + name, verdict, 'Not JSON')
        text = session.text('#result section.card p')
        session.said('why it is not: ' + name, '' if text.startswith(words) else text or 'no text')
    path = session.work / 'long.json'
    with open(path, 'wb') as file:
        file.truncate(MOST_BYTES + 1)
    session.equal('a file that is too long', session.judged(path), 'Too large')
    path.unlink()


def removed(session):
    """A file that is removed again."""
    session.judged(SMALL, COUNTY[0])
    session.equal('what is chosen is one line', [session.text('#files-chosen').strip(), session.browser.script("return document.getElementById('files-open').hidden")],
                  [f'{SMALL.name}, {COUNTY[0].name}', True])
    session.click('#choose-others')
    session.click('#remove-0')
    session.becomes('the first file removed', session.verdict, 'Accepted')
    session.equal('the second file is the first now', session.text('#name-0 bdi'), COUNTY[0].name)
    session.click('#remove-0')
    session.becomes('no file left', lambda: session.text('#result-top') + session.text('#result-rest'), '')


def unpacked(stream):
    """A part of a PDF, which may be compressed."""
    try:
        return zlib.decompress(stream)
    except zlib.error:
        return b''


def pages_of(pdf):
    """How many pages a PDF has."""
    return len(re.findall(rb'/Type\s*/Page\b', pdf + b''.join(map(unpacked, re.findall(rb'stream\r?\n(.*?)endstream', pdf, re.S)))))


def printed(session):
    """The record of two files that mean the same is two pages at most, and has what it needs."""
    session.judged(*COUNTY)
    pages = pages_of(base64.b64decode(session.browser.command('print')))
    session.said('the printed record is two pages at most', '' if pages <= 2 else '%d pages' % pages)
    labels = session.texts('.record dt')
    wanted = json.loads((ROOT / 'web' / 'texts.en.json').read_text(encoding='utf-8'))
    missing = [key for key in ('verdict', 'file1', 'file2', 'fileSum', 'formSum', 'prefer', 'date', 'version', 'page')
               if wanted['record.' + key] not in labels]
    session.equal('the record has all', missing, [])


def licences(session):
    """The licences of all code in the page stand at its foot, behind a word."""
    session.fresh()
    wanted = ''.join((ROOT / name).read_text(encoding='utf-8') for name in ('LICENSE-MIT', 'THIRD-PARTY-NOTICES')).split()
    session.equal('the licences are folded', session.text('#licences pre'), '')
    session.click('#licences summary')
    session.becomes('the licences', lambda: session.text('#licences pre').split()[-len(wanted):] == wanted, True)


OPENER = "return [...document.querySelectorAll('summary, button')].find((one) => one.textContent.includes(arguments[0])) ?? null"


def documents(session):
    """The profile and the letter to the vendor are in the page, and can be opened from where they are named."""
    for name, words, file in (('profile', 'PROFILE.md', 'PROFILE.md'), ('letter', 'letter to the vendor', 'VENDORS.md')):
        session.fresh()
        opener = session.browser.script(OPENER, words)
        session.said(f'{file} can be opened', '' if opener else f'nothing that opens says {words}')
        if opener is None:
            return
        opener.click()
        session.becomes(f'{file} in the page', lambda: session.text(f'#{name} pre'), (ROOT / 'docs' / file).read_text(encoding='utf-8'))
    session.fresh()
    session.browser.script("document.querySelectorAll('#examples button')[2].click()")
    session.verdict()
    session.browser.until("return document.querySelector('.prepare .note button') !== null")
    session.click('.prepare .note button')
    session.becomes('the letter is opened from a refused file', lambda: session.text('#letter pre').split('\n')[0], '# A letter to the vendor')
