"""The converter of the page and that of the Python package make the same JSON of the same XML, and tell the same of it: of a thousand
reports in which an element is dropped or doubled, of a thousand with other changes too, of JSON that was made from some, and in whatever
parts the page reads them. And each element that is dropped or doubled is seen, in what the page tells or in the JSON that it makes."""
import base64
import collections
import json
import os
import random
import subprocess
from xml.etree import ElementTree

import answers
from session import EXAMPLES, ROOT
import build
import xml_reports
from erd import from_xml
from xml_reports import in_version
from xml_writer import born_of, mutant_of, seen, xml_of

COUNT = 1000
COUNT_BORN = 250
BATCH = 50
COUNT_SMALLEST = 10
INSTANCE = 'http://www.w3.org/2001/XMLSchema-instance'
# Parts of one token each, and a few bytes at a time.
SMALLEST = {'enough': 1, 'block': 7}


def run(session, count=COUNT):
    path = session.file('convert.html', page())
    session.others['convert'] = path.resolve().as_uri()
    session.browser.open(session.others['convert'])
    damaged = list(random_damage(count))
    all_seen(session, damaged, agree(session, 'XML with an element dropped or doubled', [data for _, data in damaged]))
    changed = list(random_xml(count))
    agree(session, 'XML with changes at random', changed)
    agree(session, 'XML in the smallest parts', sorted(changed, key=len)[:COUNT_SMALLEST], SMALLEST)
    agree(session, 'JSON made from XML', [born_of(xml, dice.choice(('at', 'attributes'))) for xml, dice in zip(
        filter(is_read, changed), map(random.Random, range(COUNT_BORN)))])
    agree(session, 'XML by hand', [text.encode('utf-8') for text in BY_HAND])
    agree(session, 'XML by hand, in the smallest parts', [text.encode('utf-8') for text in BY_HAND], SMALLEST)


def page():
    """A page with the converter alone."""
    modules = {}
    build.add_module(ROOT / 'tests' / 'page' / 'convert.mjs', modules)
    return f'<!DOCTYPE html><meta charset="utf-8"><title>x</title><script>(() => {{\n"use strict";\n{"".join(modules.values())}}})();</script>'


def is_read(xml):
    """Whether what the tests make JSON with reads this."""
    try:
        ElementTree.fromstring(xml)
        return True
    except ElementTree.ParseError:
        return False


def of_python(data):
    """What the package makes of a file, as the page tells it."""
    try:
        found = from_xml.convert(data)
    except from_xml.NotXml:
        return 'not converted'
    return found.form.decode('utf-8'), [(told.place, told.line, told.words) for told in found.told], found.all_told


def of_page(found):
    """What the page made of a file."""
    if 'why' in found:
        return 'not converted'
    return found['text'], [(told['place'], told['line'], answers.say(f"xml.told.{told['key']}", name=told['name'])) for told in found['told']], found['allTold']


def agree(session, name, files, sizes=None):
    """One case: all of these files become the same. Returns what the page made of them."""
    wrong, made = [], []
    for at in range(0, len(files), BATCH):
        batch = files[at:at + BATCH]
        found = session.browser.script('return convertedAll(arguments[0], arguments[1] ?? {})', [base64.b64encode(data).decode() for data in batch], sizes)
        wrong += [(data, of_page(one), of_python(data)) for data, one in zip(batch, found) if of_page(one) != of_python(data)]
        made += found
    session.said(f'{name}: {len(files)} become the same', f'{len(wrong)} differ: {wrong[0]!r}'[:3000] if wrong else '')
    return made


def all_seen(session, damaged, made):
    """One case: what was done to each of these files is seen, by the verdict of the package on the JSON that the page made, beside that of
    the whole report. Some are told by the page, some are refused, some differ, and some differ around the ballots alone."""
    os.environ['ERD_LIBRARY'] = library()
    forms = {whole: from_xml.convert(whole).form for whole in {whole for whole, _ in damaged}}
    ways = collections.Counter('not converted' if 'why' in one else seen(forms[whole], one['text'].encode('utf-8'), one['told'])
                               for (whole, _), one in zip(damaged, made))
    print(f'        {session.browser.name}: dropped or doubled elements are seen: {dict(ways)}', flush=True)
    session.equal(f'XML with an element dropped or doubled: of {len(made)} are seen', len(made) - ways[None], len(damaged))


def library():
    """The path of the C library of this machine, as the package has it; it is made where it is not there."""
    processor = os.uname().machine
    path = ROOT / 'out' / 'portable' / f'linux-{processor}' / 'liberd.so.0'
    if not path.exists():
        subprocess.run(['packaging/portable/linux.sh', processor], cwd=ROOT, check=True)
    return str(path)


# ---- changes at random

def unknown(node, _):
    ElementTree.SubElement(node, 'Blurb', {'C': '1'}).text = ' a & b '


def foreign(node, _):
    ElementTree.SubElement(node, '{urn:x}Notes').text = 'x'


def nil(node, dice):
    node.set(f'{{{INSTANCE}}}nil', dice.choice(['true', ' 0 ', 'yes']))


def classed(node, dice):
    node.set(f'{{{INSTANCE}}}type', dice.choice(['ReportingUnit', ' CandidateContest', 'Pond', 'x:Party']))


def attribute(node, dice):
    node.set(dice.choice(['ObjectId', 'objectId', 'Label', 'X', '{urn:x}Y']), dice.choice(['a b', '<\t>', '"é"']))


def worded(node, dice):
    node.text = dice.choice(['', ' 7 ', '+07', '1.5', 'true', ' a  b\n', 'x]] >&', '\u00a0\U0001f5f3'])


def moved(node, dice):
    children = list(node)
    dice.shuffle(children)
    node[:] = children


CHANGES = (unknown, foreign, nil, classed, attribute, worded, moved)


def written_otherwise(text, dice):
    """The same XML in another spelling, or what is no XML any more."""
    way = dice.randrange(8)
    if way == 0:
        return text.replace('\n', '\r\n')
    if way == 1:
        return text.replace('>', '><!-- <a b=">" -->', 3)
    if way == 2:
        return text.replace('>\n', '><?x >?>\n', 2).replace('é', '&#xE9;')
    if way == 3:
        at = dice.randrange(len(text))
        return text[:at] + dice.choice('<>&"\'/ ]') + text[at:]
    return text


def all_whole():
    """The reports that are changed, as XML of both versions."""
    reports = [*(make() for make in xml_reports.REPORTS.values()), json.loads((EXAMPLES / 'small-ballot.json').read_bytes())]
    return [xml_of(in_version(report, version), version) for report in reports for version in (1, 2)]


def random_damage(count):
    """Each a whole report, and the same with an element at random dropped or doubled, and nothing else."""
    dice = random.Random(1500)
    whole = all_whole()
    for _ in range(count):
        xml = dice.choice(whole)
        yield xml, mutant_of(xml, dice)


def random_xml(count):
    """Reports with changes at random: an element that is dropped or doubled, and a few others."""
    dice = random.Random(87)
    whole = all_whole()
    for _ in range(count):
        xml = mutant_of(dice.choice(whole), dice)
        if dice.random() < 0.7:
            root = ElementTree.fromstring(xml)
            nodes = list(root.iter())
            for _ in range(dice.randrange(1, 4)):
                dice.choice(CHANGES)(dice.choice(nodes), dice)
            xml = ElementTree.tostring(root)
        text = written_otherwise(xml.decode('ascii'), dice)
        yield text.encode('utf-8')


SPACE = f'xmlns="http://itl.nist.gov/ns/voting/1500-100/v2" xmlns:xsi="{INSTANCE}"'
CONTENTS = (
    'a', '<Notes>a<![CDATA[ <b>&amp; ]] ]]]><!-- c -->d</Notes>', '<Notes a=">" b=\'"/>\'/>', '<Notes><![CDATA[]]></Notes>', '<Notes>]]></Notes>',
    '<Notes>a\r\nb\rc&#13;d</Notes>', '<Notes>&lt;&#x10FFFF;&apos;</Notes>', '<Notes>&nbsp;</Notes>', '<Notes>&#0;</Notes>', '<Notes/ >', '<Notes></Note>',
    '<n:Notes xmlns:n="http://itl.nist.gov/ns/voting/1500-100/v2">a</n:Notes>', '<n:Notes>a</n:Notes>', '<Notes xmlns="">a</Notes>', '<Notes a="1" a="2"/>',
    '<GpUnit xmlns:n="http://itl.nist.gov/ns/voting/1500-100/v2" xsi:type=" n:ReportingUnit "/>', '<GpUnit xsi:type="n:ReportingUnit"/>',
    '<Notes xml:lang="en">a</Notes>', '<Notes a="&lt;"/>', '<Notes a="<"/>', '<?xml version="1.0"?>', '<!DOCTYPE a>', '<Notes>a</Notes><Notes>b</Notes>',
    '<Election><ElectionScopeId> a </ElectionScopeId><ElectionScopeId>b c</ElectionScopeId></Election>', '<Election><ElectionScopeId/></Election>', '<!-- a -- b -->', '<Party><!----></Party>', '<parsererror>a</parsererror>',
)
BY_HAND = (
    *(f'<ElectionReport {SPACE}>{inner}</ElectionReport>' for inner in CONTENTS),
    f'\n <!-- a --><?b?>\n<ElectionReport {SPACE}>\n<X/>\n</ElectionReport>\n<!-- c -->\n', f'<ElectionReport {SPACE}/>a', f'<ElectionReport {SPACE}/><a/>',
    f'<ElectionReport {SPACE}/></a>', f'a<ElectionReport {SPACE}/>', f'<ElectionReport {SPACE}>', '<ElectionReport/>',
    '<ElectionReport><Notes>a</Notes></ElectionReport>',
    '<ElectionReport xmlns="urn:x"/>', '<Ballot/>', f'<?xml version="1.0" encoding="utf-8" standalone="yes"?><ElectionReport {SPACE}/>',
    f' <?xml version="1.0"?><ElectionReport {SPACE}/>', f"<?xml version='1.0' encoding='UTF-16'?><ElectionReport {SPACE}/>", '<a', '<', '<!--',
    '<ElectionReport',
    f'<n:ElectionReport {SPACE.replace("xmlns=", "xmlns:n=")}><n:Notes>a</n:Notes></n:ElectionReport>',
)
