"""The XML form, and JSON that was made from it: the page converts both, says so beside each verdict, and gives the sums of both files. The
XML is written by the writer of the tests of the Python package, from memory of the public schema, and so are the reports."""
import csv
import io
import json

import answers
from bounds import tries_of
from session import EXAMPLES, report_of_units, sha256
from spanish import TEXTS, speak
import xml_reports
from erd import from_xml
from erd.from_xml.__main__ import line_of
from xml_reports import in_version
from xml_writer import born_of, xml_of

WORDS = 'converted from XML by this page, which no proof covers'
BORN_WORDS = 'JSON made from XML, converted by this page, which no proof covers'
SAME = 'These two files define the same ballots'
EXAMPLE_NAMES = ('county-general', 'one-unit', 'two-elections.vendor-a')
MOST_SECONDS = 1
MOST_MEGABYTES = 200
TRIES = 5
UNITS = 40_000
OPEN = b'<ElectionReport xmlns="http://itl.nist.gov/ns/voting/1500-100/v2">'


def run(session):
    same(session)
    converted(session)
    not_understood(session)
    born(session)
    prepared(session)
    many(session)
    spanish(session)
    cancelled(session)
    not_converted(session)
    hostile(session)


def report_of(name):
    return json.loads((EXAMPLES / f'{name}.json').read_bytes())


def same(session):
    """Each report as XML of both versions means what its JSON means, as far as the version can say it: six as counties have them, and three
    examples."""
    whole = {**{name: make() for name, make in xml_reports.REPORTS.items()}, **{name: report_of(name) for name in EXAMPLE_NAMES}}
    reports = [(f'{name} of version {version}', version, in_version(report, version)) for name, report in whole.items() for version in (1, 2)]
    for name, version, report in reports:
        pair = session.file('left.xml', xml_of(report, version, 'UTF-16' if version == 1 else 'UTF-8')), session.file('right.json', json.dumps(report))
        session.equal(f'XML: {name}', session.judged(*pair), SAME)
        session.equal(f'XML: {name} says so', session.texts('.banner .converted'), [f'left.xml was {WORDS}. {answers.say("xml.verdict")}'])


def rows_of_record(session):
    """The rows of the record, each a label and the text behind it, without buttons."""
    return session.browser.script("""
        return [...document.querySelectorAll('.record dl > div')].map((row) => {
            const value = row.querySelector('dd').cloneNode(true);
            value.querySelectorAll('button').forEach((one) => one.remove());
            return [row.querySelector('dt').textContent, value.textContent.trim()];
        })""")


def has_rows(session, name, wanted):
    """One case: the record has these rows."""
    rows = rows_of_record(session)
    session.equal(name, [row for row in wanted if row not in rows], [])


def sums_of(data, form):
    return [sha256(data), sha256(form)]


def converted(session):
    """What is said of a file that was converted: in the verdict, below it with the sums of both files, and in the record, in print too."""
    xml = xml_of(report_of('small-ballot'))
    form = from_xml.convert(xml).form
    session.equal('XML: one file', session.judged(session.file('small.xml', xml)), 'Accepted')
    session.equal('XML: its notice', session.text('.notice h3'), f'small.xml was {WORDS}')
    session.equal('XML: its sums', session.texts('.notice .sum'), sums_of(xml, form))
    session.has('XML: all of it', session.text('.notice'), answers.say('xml.whole'))
    canonical = sha256((EXAMPLES / 'small-ballot.canonical.json').read_bytes())
    has_rows(session, 'XML: its record', [
        ['File', f'small.xml ({len(xml):,} bytes)'], ['SHA-256 of the file', sha256(xml)], ['Conversion', WORDS],
        ['SHA-256 of the JSON form that was judged', sha256(form)], ['Places that were not understood', '0']])
    session.has('XML: the sum of its canonical form', session.text('.sum[data-sum="form"]'), canonical)
    session.browser.medium('print')
    printed = session.browser.script('return document.body.innerText')
    session.browser.medium('')
    session.equal('XML: its print', [words for words in (WORDS, sha256(form)) if words not in printed.replace('\n', '')], [])
    session.has('XML: what the saved form does not say', session.text('.notice'), answers.say('xml.saveNote'))
    session.click('.notice .buttons button')
    session.equal('XML: its form is saved', session.downloaded('small.converted.json'), form)
    session.browser.script("document.querySelector('.record .buttons button:last-child').scrollIntoView()")
    session.click('.record .buttons button:last-child')
    session.equal('XML: its canonical form is saved', sha256(session.downloaded('small.converted.canonical.json')), canonical)


def not_understood(session):
    """What is not understood is told below the verdict, with its places and lines, and counted in the record; it can be saved."""
    inner = '\n'.join(f'<X N="{number}"/>' for number in range(12))
    xml = xml_of(report_of('small-ballot')).replace(b'</ElectionReport>', f'{inner}<![CDATA[<b>]]></ElectionReport>'.encode())
    found = from_xml.convert(xml)
    session.judged(session.file('odd.xml', xml))
    session.equal('XML: how many places', session.texts('.notice h3')[1], f'{found.all_told} places in odd.xml were not understood')
    session.equal('XML: the first places', session.texts('.notice li'), [line_of(told) for told in found.told[:10]])
    session.has('XML: how many more', session.texts('.notice')[1], answers.say('xml.more', count=found.all_told - 10))
    has_rows(session, 'XML: they are counted', [['Places that were not understood', str(found.all_told)]])
    session.browser.script("[...document.querySelectorAll('.notice .buttons button')].at(-1).click()")
    session.equal('XML: they are saved', session.downloaded('odd.not-understood.txt').decode().splitlines(), [line_of(told) for told in found.told])


def born(session):
    """JSON that a usual converter made from XML is known by its shape, and goes the same way; beside a file in XML, too."""
    report = report_of('county-general')
    xml = xml_of(report)
    for form in ('at', 'attributes'):
        data = born_of(xml, form)
        pair = session.file('born.json', data), session.file('right.json', json.dumps(report))
        session.equal(f'XML: JSON made from it, {form}', session.judged(*pair), SAME)
        session.equal(f'XML: it says so, {form}', session.texts('.banner .converted'), [f'born.json is {BORN_WORDS}. {answers.say("xml.verdict")}'])
        session.equal(f'XML: its sums, {form}', session.texts('.notice .sum'), sums_of(data, from_xml.convert(data).form))
        has_rows(session, f'XML: its record, {form}', [['Conversion', BORN_WORDS]])
    session.equal('XML: both forms of it', session.judged(session.file('left.xml', xml), session.file('born.json', born_of(xml, 'at'))), SAME)
    session.equal('XML: both say so', [text.split('. ')[0] for text in session.texts('.banner .converted')],
                  [f'left.xml was {WORDS}', f'born.json is {BORN_WORDS}'])
    session.judged(session.file('list.json', '{"ElectionReport": {"@xmlns": "x", "Notes": [[1]]}}'))
    session.has('XML: JSON that is not converted', session.text('.notice'), answers.say('xml.why.noSuchJson'))


def prepared(session):
    """A copy that is prepared of a file in XML says where it comes from, and so does the copy that is opened again."""
    report = report_of('small-ballot') | {'IsTest': None}
    xml = xml_of(report)
    session.judged(session.file('null.xml', xml))
    session.click('#prepare-begin-0')
    session.browser.until("return document.querySelector('#prepare-check-0')?.disabled === false")
    session.browser.script("document.getElementById('verdict').remove(); document.getElementById('prepare-check-0').click()")
    session.becomes('XML: a prepared copy', session.verdict, 'Accepted')
    session.equal('XML: the copy says so', session.texts('.banner .converted'), [f'null.prepared.json was {WORDS}. {answers.say("xml.verdict")}'])
    has_rows(session, 'XML: the record of the copy',
             [['Prepared by this page from', 'null.xml'], ['SHA-256 of that file', sha256(xml)], ['Conversion', WORDS]])
    session.click('.save-copy')
    copy = session.downloaded('null.prepared.json')
    session.has('XML: its notes', copy.decode(), f'Prepared by erd from \\"null.xml\\", converted from XML (SHA-256 {sha256(xml)})')
    session.judged(session.file('again.json', copy))
    session.has('XML: the copy opened again', session.text('.prepared-copy'), answers.say('prepare.claimsConverted'))
    has_rows(session, 'XML: its record', [['Conversion', answers.say('record.claimedWords')]])


def many(session):
    """Many files: those in XML are in the groups of what means the same, and the table and the CSV say that they were converted."""
    report = report_of('county-general')
    files = {'a.xml': xml_of(report), 'b.json': json.dumps(report).encode(), 'c.json': born_of(xml_of(report), 'at'), 'd.xml': b'<x/>',
             'e.xml': xml_of(report).replace(b'</ElectionReport>', b'<X/></ElectionReport>')}
    session.fresh()
    session.choose(0, *(session.file(name, data) for name, data in files.items()))
    session.browser.until("return document.documentElement.dataset.busy === 'no' && document.querySelector('#many-files tbody tr') !== null")
    rows = session.browser.script("""
        return [...document.querySelectorAll('#many-files tbody tr')].map((row) => [0, 2, 3, 5].map((at) => row.children[at].textContent))""")
    group, not_json = '1: 3 files mean the same', answers.say('verdict.notJson')
    session.equal('XML: many files', rows, [
        ['a.xml', 'Accepted', group, f'It was {WORDS}'], ['b.json', 'Accepted', group, ''], ['c.json', 'Accepted', group, f'It is {BORN_WORDS}'],
        ['d.xml', not_json, '', answers.say('xml.why.root')],
        ['e.xml', 'Accepted', '2: alone', f'It was {WORDS}{answers.say("many.notUnderstood", count=1)}']])
    (session.work / 'downloads' / 'ballots.csv').unlink(missing_ok=True)
    session.browser.script("[...document.querySelectorAll('#many-files .buttons button')].at(-1).click()")
    saved = {row['file']: row for row in csv.DictReader(io.StringIO(session.downloaded('ballots.csv').decode(), newline=''))}
    heads = ('sha256', 'converted_from_xml_without_proof', 'converted_sha256', 'not_understood')
    session.equal('XML: the CSV of many files', [[saved[name][head] for head in heads] for name in ('a.xml', 'b.json', 'e.xml')],
                  [[sha256(files['a.xml']), 'yes', sha256(from_xml.convert(files['a.xml']).form), '0'], [sha256(files['b.json']), '', '', ''],
                   [sha256(files['e.xml']), 'yes', sha256(from_xml.convert(files['e.xml']).form), '1']])


def spanish(session):
    """The same in Spanish."""
    xml = xml_of(report_of('small-ballot')).replace(b'</ElectionReport>', b'<X/></ElectionReport>')
    session.judged(session.file('small.xml', xml))
    speak(session, 'es')
    session.becomes('XML: in Spanish', session.verdict, TEXTS['es']['verdict.accepted'])
    session.browser.until("return document.querySelectorAll('.notice').length === 2")
    said = TEXTS['es']['xml.converted'].replace('{name}', 'small.xml')
    session.equal('XML: it says so in Spanish', session.texts('.banner .converted') + session.texts('.notice h3')[:1],
                  [f'{said}. {TEXTS["es"]["xml.verdict"]}', said])
    session.equal('XML: what is told in Spanish', session.texts('.notice li'),
                  [f'/ElectionReport/X (línea {xml[:xml.index(b"<X/>")].count(10) + 1}): {TEXTS["es"]["xml.told.element"]}'])
    has_rows(session, 'XML: its record in Spanish', [['Conversión', TEXTS['es']['record.convertedWords']]])


def cancelled(session):
    """The conversion of a large file shows how far it is, and is cancelled."""
    report = json.loads(report_of_units(session.work / 'units.json', UNITS).read_bytes())
    path = session.file('units.xml', xml_of(report))
    session.fresh()
    session.choose(0, path)
    session.browser.until("return document.getElementById('stage').textContent.includes('units.xml') && document.getElementById('meter').value > 0")
    session.equal('XML: its progress', session.text('#stage'), answers.say('progress.converting', name='units.xml'))
    session.click('#cancel')
    session.becomes('XML: it is cancelled', lambda: session.text('#verdict'), answers.say('verdict.cancelled'))
    session.choose(0, session.file('small.xml', xml_of(report_of('small-ballot'))))
    session.equal('XML: another file after that', session.verdict(), 'Accepted')


MALFORMED = ('malformed', {'line': '1'})
LAUGHS = b'<!DOCTYPE a [<!ENTITY a "ha">' + b''.join(b'<!ENTITY %c "%s">' % (98 + at, b'&%c;' % (97 + at) * 10) for at in range(20)) + b']>'
# Of each the key and the values of the sentence.
WRONG = {
    'an external entity': (b'<!DOCTYPE a [<!ENTITY x SYSTEM "file:///etc/passwd">]><a>&x;</a>', 'doctype', {}),
    'an external type': (b'<!DOCTYPE a SYSTEM "http://localhost:1/a.dtd"><a/>', 'doctype', {}),
    'another entity': (OPEN + b'&nbsp;</ElectionReport>', *MALFORMED),
    'a DOCTYPE in UTF-16': ('<!DOCTYPE a><a/>'.encode('utf-16'), 'doctype', {}),
    'Windows-1252': (b'<?xml version="1.0" encoding="Windows-1252"?><a/>', 'otherEncoding', {'encoding': 'Windows-1252'}),
    'UTF-7': (b'<?xml version="1.0" encoding="UTF-7"?><a/>', 'otherEncoding', {'encoding': 'UTF-7'}),
    'UTF-16 that is not': (b'<?xml version="1.0" encoding="UTF-16"?><a/>', 'encoding', {'encoding': 'UTF-16'}),
    'UTF-8 that is not': (OPEN + b'\xff</ElectionReport>', 'encoding', {'encoding': 'UTF-8'}),
    'another root': (b'<Ballot/>', 'root', {}),
    'another namespace': (b'<ElectionReport xmlns="urn:x"/>', 'root', {}),
    'cut off': (OPEN + b'\n<GpUnit>', 'malformed', {'line': '2'}),
    'a wrong end': (OPEN + b'\n\n<GpUnit></GpUnits></ElectionReport>', 'malformed', {'line': '3'}),
}


def not_converted(session):
    """Why a file in XML is not converted, in one sentence, and nothing else is said of it."""
    for name, (data, key, values) in WRONG.items():
        session.equal(f'XML: {name}', session.judged(session.file('wrong.xml', data)), 'Not JSON')
        session.equal(f'XML: why not: {name}', session.text('#result section.card p'), answers.say(f'xml.why.{key}', **values))


# Small files and large ones that are made to cost much.
HOSTILE = {
    'a billion laughs': (lambda: LAUGHS + b'<a>&u;</a>', 'doctype', {}),
    'a million attributes': (lambda: b'<ElectionReport ' + b' '.join(b'a%d=""' % at for at in range(10 ** 6)) + b'/>', 'manyAttributes', {'most': 100}),
    'a million elements with an attribute': (lambda: OPEN + b'<a b=""/>' * 10 ** 6 + b'</ElectionReport>', 'tooMany', {'most': 20000}),
    'a depth of 100,000': (lambda: OPEN + b'<a>' * 10 ** 5, 'tooDeep', {'most': 127}),
    'a long comment': (lambda: OPEN + b'<!--' + b' ' * 10 ** 7 + b'--></ElectionReport>', 'longTag', {'most': 262144}),
    'a long name': (lambda: OPEN + b'<' + b'a' * 10 ** 7, 'longTag', {'most': 262144}),
}


def hostile(session):
    """Each ends with one sentence, within 200 MB and a second: of the clock on a machine at rest, and else of processors in the processes
    of pages, where the bytes are read, decoded, parsed and converted."""
    small = session.file('small.xml', b'<Ballot/>')
    for name, (make, key, values) in HOSTILE.items():
        path = session.file('hostile.xml', make())

        def act(path=path):
            session.choose(0, path)
            session.verdict()

        tries = tries_of(session, lambda: session.judged(small), act, MOST_SECONDS, MOST_MEGABYTES, TRIES)
        print(f'        {session.browser.name}: {name}: {tries}', flush=True)
        session.equal(f'XML: {name}', session.text('#result section.card p'), answers.say(f'xml.why.{key}', **values))
        session.said(f'XML: the cost of {name}', '' if tries[-1].is_within(MOST_SECONDS, MOST_MEGABYTES) else str(tries))
