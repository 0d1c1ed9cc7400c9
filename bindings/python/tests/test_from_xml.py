"""The converter from XML. The XML is written by the tests' own writer, from memory of the public schema."""

import doctest
import hashlib
import json
import os
import random
import subprocess
import sys

import pytest
from xml_reports import REPORTS, in_version, without_headers
from xml_writer import born_of, mutant_of, seen, xml_of

import erd
from erd import from_xml

EXAMPLES = ['county-general.json', 'county.vendor-a.json', 'county.vendor-b.json', 'one-unit.json', 'small-ballot.json',
            'two-elections.vendor-a.json', 'two-elections.vendor-b.json']
# Each in both versions, as far as the version can say it.
CASES = [(name, version) for name in (*REPORTS, *EXAMPLES) for version in (1, 2)]
# What two of the examples carry beside the schema.
CARRIED = {'county.vendor-a.json': ['BallotText'], 'county.vendor-b.json': ['BallotText']}
SPACE = 'xmlns="http://itl.nist.gov/ns/voting/1500-100/v2" xmlns:xsi="http://www.w3.org/2001/XMLSchema-instance"'


UNIT = '<GpUnit xsi:type="ReportingUnit"'


def report_of(top, name, version=2):
    return in_version(REPORTS[name]() if name in REPORTS else json.loads((top / 'examples' / name).read_bytes()), version)


def bytes_of(report):
    return json.dumps(report).encode('ascii')


def ids_of(cases):
    """The names of cases, without blanks."""
    return [name.replace(' ', '-') for name in cases]


def told_of(found):
    """The last names of the places that are told."""
    return [told.place.split('/')[-1] for told in found.told]


@pytest.mark.parametrize('name, version', CASES)
def test_same(top, name, version):
    report = report_of(top, name, version)
    assert erd.check(bytes_of(report)).accepted
    for encoding in ('UTF-8', 'UTF-16'):
        found = from_xml.convert(xml_of(report, version, encoding))
        assert (told_of(found), found.version) == (CARRIED.get(name, []), version)
        assert erd.compare(found.form, bytes_of(report)).same


@pytest.mark.parametrize('encoding', ['UTF-16LE', 'UTF-16BE'])
def test_an_order_of_bytes_that_is_declared(top, encoding):
    report = report_of(top, 'small-ballot.json')
    assert erd.compare(from_xml.convert(xml_of(report, 2, encoding)).form, bytes_of(report)).same


@pytest.mark.parametrize('version', [1, 2])
@pytest.mark.parametrize('name', REPORTS)
def test_every_member_is_converted(top, name, version):
    """Also those that have no meaning for erd."""
    report = report_of(top, name, version)
    assert json.loads(from_xml.convert(xml_of(report, version)).form) == report


@pytest.mark.parametrize('name', [*REPORTS, *EXAMPLES])
def test_only_headers_are_left_out_for_version_1(top, name):
    """By hand: the contests of the one style with headers, in the order in which a reader meets them. Nothing else is changed."""
    report = report_of(top, name)
    reduced = without_headers(report)
    styles = [style for election in reduced['Election'] for style in election.get('BallotStyle', [])]
    assert all(set(entry) <= {'@type', 'ContestId', 'OrderedContestSelectionIds'} for style in styles for entry in style.get('OrderedContent', []))
    if name == 'headers':
        assert [entry['ContestId'] for entry in styles[0]['OrderedContent']] == ['mayor', 'ward1', 'ward2', 'clerk']
    elif 'Header' not in report:
        assert reduced == report
    for each in (report, reduced):
        each.pop('Header', None)
        for style in (style for election in each['Election'] for style in election.get('BallotStyle', [])):
            style.pop('OrderedContent', None)
    assert reduced == report


@pytest.mark.parametrize('form', ['at', 'attributes'])
@pytest.mark.parametrize('name, version', CASES)
def test_json_that_was_made_from_xml(top, name, version, form):
    xml = xml_of(report_of(top, name, version), version)
    found = from_xml.convert(born_of(xml, form))
    assert told_of(found) == CARRIED.get(name, [])
    assert erd.compare(found.form, from_xml.convert(xml).form).same


@pytest.mark.parametrize('name, version', [(name, version) for name, version in CASES if name in REPORTS])
def test_dropped_and_doubled_elements_are_seen(top, name, version):
    xml = xml_of(report_of(top, name, version), version)
    base, dice = from_xml.convert(xml), random.Random(f'{name} {version}')
    for _ in range(100):
        mutant = mutant_of(xml, dice)
        found = from_xml.convert(mutant)
        assert seen(base.form, found.form, found.told), mutant


CARRIED_AS_IT_IS = 'an element that is not understood here; it is carried as it is'
NOT_NIL = 'said to be nil, and not empty; what it has is carried'
NO_CLASS = 'a class that is not understood here'
# XML in the second line, the place that is told, the members of the report, and what is told.
TOLD = {
    'an element': ('<Blurb><B C="1"/></Blurb>', '/ElectionReport/Blurb', {'Blurb': {'B': {'C': '1'}}}, CARRIED_AS_IT_IS),
    'an element of another namespace': ('<Notes xmlns="urn:x">a</Notes>', '/ElectionReport/{urn:x}Notes', {'{urn:x}Notes': 'a'}, CARRIED_AS_IT_IS),
    'an element with a long name': (f'<{"a" * 81}/>', f'/ElectionReport/{"a" * 80}..', {'a' * 81: ''}, CARRIED_AS_IT_IS),
    'an element with a shorter name': (f'<{"a" * 80}/>', f'/ElectionReport/{"a" * 80}', {'a' * 80: ''}, CARRIED_AS_IT_IS),
    'an attribute': ('<Notes X="1">a</Notes>', '/ElectionReport/Notes', {'Notes': {'X': '1', '#text': 'a'}},
                     'the attribute X is not understood here; it is carried as a member'),
    'an attribute with a long name': (f'<Notes {"b" * 81}="1"/>', '/ElectionReport/Notes', {'Notes': {'b' * 81: '1'}},
                                      f'the attribute {"b" * 80} is not understood here; it is carried as a member'),
    'an attribute of another namespace': ('<Notes xmlns:y="urn:y" y:X="1"/>', '/ElectionReport/Notes', {'Notes': {'{urn:y}X': '1'}},
                                          'the attribute {urn:y}X is not understood here; it is carried as a member'),
    'no whole number': ('<SequenceEnd>1.5</SequenceEnd>', '/ElectionReport/SequenceEnd', {'SequenceEnd': '1.5'}, 'no whole number; the text is carried'),
    'no number': ('<Office><ContactInformation><LatLng><Latitude>x</Latitude></LatLng></ContactInformation></Office>',
                  '/ElectionReport/Office[1]/ContactInformation/LatLng/Latitude',
                  {'Office': [{'@type': 'ElectionResults.Office', 'ContactInformation': {
                      '@type': 'ElectionResults.ContactInformation', 'LatLng': {'@type': 'ElectionResults.LatLng', 'Latitude': 'x'}}}]},
                  'no number; the text is carried'),
    'no truth value': ('<IsTest>yes</IsTest>', '/ElectionReport/IsTest', {'IsTest': 'yes'}, 'neither true nor false; the text is carried'),
    'one that is twice': ('<Notes>a</Notes><Notes>b</Notes>', '/ElectionReport/Notes[2]', {'Notes': ['a', 'b']},
                          'Notes stands here more than once; all are carried'),
    'references that stand twice': (f'{UNIT}><AuthorityIds>a</AuthorityIds><AuthorityIds>b</AuthorityIds></GpUnit>',
                                    '/ElectionReport/GpUnit[1]/AuthorityIds[2]',
                                    {'GpUnit': [{'@type': 'ElectionResults.ReportingUnit', 'AuthorityIds': ['a', 'b']}]},
                                    'AuthorityIds stands here more than once; all are carried'),
    'a text among elements': ('<Party>a<Color>b</Color></Party>', '/ElectionReport/Party[1]',
                              {'Party': [{'@type': 'ElectionResults.Party', 'Color': 'b'}]}, 'a text among elements is left out'),
    'no class': ('<GpUnit><Number>1</Number></GpUnit>', '/ElectionReport/GpUnit[1]', {'GpUnit': [{'Number': '1'}]}, 'no class is named'),
    'an unknown class': ('<GpUnit xsi:type="Pond"/>', '/ElectionReport/GpUnit[1]', {'GpUnit': [{'@type': 'ElectionResults.Pond'}]}, NO_CLASS),
    'a class of another namespace': ('<GpUnit xmlns:y="urn:y" xsi:type="y:ReportingUnit"/>', '/ElectionReport/GpUnit[1]',
                                     {'GpUnit': [{'@type': 'ElectionResults.y:ReportingUnit'}]}, NO_CLASS),
    'two references': ('<Election><ElectionScopeId>a b</ElectionScopeId></Election>', '/ElectionReport/Election[1]/ElectionScopeId',
                       {'Election': [{'@type': 'ElectionResults.Election', 'ElectionScopeId': 'a b'}]}, 'not one reference; the text is carried'),
    'no reference': ('<Election><ElectionScopeId> </ElectionScopeId></Election>', '/ElectionReport/Election[1]/ElectionScopeId',
                     {'Election': [{'@type': 'ElectionResults.Election', 'ElectionScopeId': ''}]}, 'not one reference; the text is carried'),
    'nil with a text': ('<Notes xsi:nil="true">a</Notes>', '/ElectionReport/Notes', {'Notes': 'a'}, NOT_NIL),
    'nil with an element': ('<Party xsi:nil="true" xsi:type="Party"><Color>b</Color></Party>', '/ElectionReport/Party[1]',
                            {'Party': [{'@type': 'ElectionResults.Party', 'Color': 'b'}]}, NOT_NIL),
    'a name of version 1': ('<GpUnitCollection/>', '/ElectionReport/GpUnitCollection', {'GpUnitCollection': ''}, CARRIED_AS_IT_IS),
}


@pytest.mark.parametrize('inner, place, members, words', TOLD.values(), ids=ids_of(TOLD))
def test_what_is_not_understood_is_told(inner, place, members, words):
    found = from_xml.convert(f'<ElectionReport {SPACE}>\n{inner}</ElectionReport>'.encode('utf-8'))
    assert json.loads(found.form) == {'@type': 'ElectionResults.ElectionReport', **members}
    assert (found.told, found.all_told, found.is_whole) == ([(place, 2, words)], 1, False)


def test_unknown_elements_of_one_name():
    found = from_xml.convert(f'<ElectionReport {SPACE}><X>a</X><X>b</X><Y/></ElectionReport>'.encode('utf-8'))
    assert json.loads(found.form) == {'@type': 'ElectionResults.ElectionReport', 'X': ['a', 'b'], 'Y': ''}
    assert found.told == [(f'/ElectionReport/{name}', 1, CARRIED_AS_IT_IS) for name in ('X', 'X[2]', 'Y')]


def test_an_unknown_element_with_an_attribute_and_a_class():
    # Of the element itself both are told, and of those inside it nothing.
    found = from_xml.convert(f'<ElectionReport {SPACE}><X C="1" xsi:type="Pond"><Y D="2" xsi:type="Lake"/></X></ElectionReport>'.encode('utf-8'))
    assert json.loads(found.form)['X'] == {'@type': 'ElectionResults.Pond', 'C': '1', 'Y': {'@type': 'ElectionResults.Lake', 'D': '2'}}
    assert found.told == [('/ElectionReport/X', 1, words) for words in (
        CARRIED_AS_IT_IS, NO_CLASS, 'the attribute C is not understood here; it is carried as a member')]


def test_no_namespace_is_told():
    found = from_xml.convert(b'<ElectionReport><Notes>a</Notes></ElectionReport>')
    assert json.loads(found.form) == {'@type': 'ElectionResults.ElectionReport', 'Notes': 'a'}
    assert (found.told, found.version) == ([('/ElectionReport', 1, 'no namespace; it is read as version 2')], 2)


# Parts of a report in version 1, the members of the report, and what is told.
OF_VERSION_1 = {
    'units in a collection': (f'<GpUnitCollection>{UNIT} objectId="u"/></GpUnitCollection>',
                              {'GpUnit': [{'@type': 'ElectionResults.ReportingUnit', '@id': 'u'}]}, []),
    'a collection with an attribute and a text': ('<PartyCollection X="1">a<Party/></PartyCollection>', {'Party': [{'@type': 'ElectionResults.Party'}]}, [
        ('/ElectionReport/PartyCollection', 1, 'the attribute X is not understood here; it is left out'),
        ('/ElectionReport/PartyCollection', 1, 'a text among elements is left out')]),
    'another element in a collection': ('<PartyCollection><Person/></PartyCollection>', {'Person': ''}, [
        ('/ElectionReport/PartyCollection/Person', 1, CARRIED_AS_IT_IS)]),
    'names that are other ones now': (
        '<Election><ContestCollection><Contest xsi:type="CandidateContest"><ElectoralDistrictId>u</ElectoralDistrictId><OfficeId>o</OfficeId>'
        '<BallotSelection xsi:type="CandidateSelection"/></Contest></ContestCollection></Election>',
        {'Election': [{'@type': 'ElectionResults.Election', 'Contest': [{
            '@type': 'ElectionResults.CandidateContest', 'ElectionDistrictId': 'u', 'OfficeIds': ['o'],
            'ContestSelection': [{'@type': 'ElectionResults.CandidateSelection'}]}]}]}, []),
    'an attribute of a small letter': ('<Party><Name><Text language="en">Blue</Text></Name></Party>', {'Party': [{
        '@type': 'ElectionResults.Party', 'Name': {'@type': 'ElectionResults.InternationalizedText', 'Text': [
            {'@type': 'ElectionResults.LanguageString', 'Language': 'en', 'Content': 'Blue'}]}}]}, []),
}


@pytest.mark.parametrize('inner, members, told', OF_VERSION_1.values(), ids=ids_of(OF_VERSION_1))
def test_parts_of_version_1(inner, members, told):
    found = from_xml.convert(f'<ElectionReport {SPACE.replace("/v2", "/v1")}>{inner}</ElectionReport>'.encode('utf-8'))
    assert json.loads(found.form) == {'@type': 'ElectionResults.ElectionReport', **members}
    assert (found.told, found.version) == (told, 1)


UNDERSTOOD = {
    'blanks about a number': ('<SequenceEnd>\n 007 </SequenceEnd>', {'SequenceEnd': 7}),
    'blanks about a truth value': ('<IsTest> 0 </IsTest>', {'IsTest': False}),
    'blanks of a text stay': ('<Notes> a\n</Notes>', {'Notes': ' a\n'}),
    'a prefix of the standard': ('<GpUnit xmlns:n="http://itl.nist.gov/ns/voting/1500-100/v2" xsi:type="n:ReportingUnit"/>',
                                 {'GpUnit': [{'@type': 'ElectionResults.ReportingUnit'}]}),
    'a prefix that stood for another namespace before': (
        '<Election xmlns:n="http://itl.nist.gov/ns/voting/1500-100/v2"><ContactInformation xmlns:n="urn:y"/><Contest xsi:type="n:PartyContest"/></Election>',
        {'Election': [{'@type': 'ElectionResults.Election', 'ContactInformation': {'@type': 'ElectionResults.ContactInformation'},
                       'Contest': [{'@type': 'ElectionResults.PartyContest'}]}]}),
    'truth values': (f'<IsTest>1</IsTest>{UNIT}><IsDistricted>false</IsDistricted><IsMailOnly>true</IsMailOnly></GpUnit>',
                     {'IsTest': True, 'GpUnit': [{'@type': 'ElectionResults.ReportingUnit', 'IsDistricted': False, 'IsMailOnly': True}]}),
    'whole numbers': ('<SequenceStart>-2</SequenceStart><SequenceEnd>+3</SequenceEnd>', {'SequenceStart': -2, 'SequenceEnd': 3}),
    'references': (f'{UNIT}><ComposingGpUnitIds> a\n b </ComposingGpUnitIds></GpUnit>',
                   {'GpUnit': [{'@type': 'ElectionResults.ReportingUnit', 'ComposingGpUnitIds': ['a', 'b']}]}),
    'one reference': ('<Election><ElectionScopeId> u </ElectionScopeId></Election>',
                      {'Election': [{'@type': 'ElectionResults.Election', 'ElectionScopeId': 'u'}]}),
    'a list of one text': ('<Person><MiddleName>A</MiddleName></Person>', {'Person': [{'@type': 'ElectionResults.Person', 'MiddleName': ['A']}]}),
    'a party, and a coalition': ('<Party/><Party xsi:type="Coalition"><ContestIds>c</ContestIds></Party>',
                                 {'Party': [{'@type': 'ElectionResults.Party'}, {'@type': 'ElectionResults.Coalition', 'ContestIds': ['c']}]}),
    'a place of the schema': (f'{UNIT} xsi:schemaLocation="a b"/>', {'GpUnit': [{'@type': 'ElectionResults.ReportingUnit'}]}),
    'not nil': ('<Notes xsi:nil="false">a</Notes>', {'Notes': 'a'}),
    'nil': ('<Notes xsi:nil="true"/>', {'Notes': None}),
    'nil by a number, with blanks': ('<Notes xsi:nil=" 1 "> \n</Notes>', {'Notes': None}),
    'the five entities': ('<Notes>&lt;&amp;&gt;&quot;&apos;&#233;</Notes>', {'Notes': '<&>"\'\u00e9'}),
    'a number that is not whole': ('<Office><ContactInformation><LatLng><Latitude>44.050</Latitude></LatLng></ContactInformation></Office>',
                                   {'Office': [{'@type': 'ElectionResults.Office', 'ContactInformation': {
                                       '@type': 'ElectionResults.ContactInformation', 'LatLng': {
                                           '@type': 'ElectionResults.LatLng', 'Latitude': 44.05}}}]}),
}


@pytest.mark.parametrize('inner, members', UNDERSTOOD.values(), ids=ids_of(UNDERSTOOD))
def test_values(inner, members):
    found = from_xml.convert(f'<ElectionReport {SPACE}>{inner}</ElectionReport>'.encode('utf-8'))
    assert told_of(found) == []
    assert json.loads(found.form) == {'@type': 'ElectionResults.ElectionReport', **members}


BORN = {
    'a number where a text was': ({'Notes': 7}, {'Notes': '7'}, ['/ElectionReport/Notes: a number in the place of a text: zeros before it may be lost']),
    'an empty list': ({'Party': []}, {}, ['/ElectionReport: Party is an empty list; it is left out']),
    'one element, and two': ({'Party': {'Color': 'a'}, 'Office': [{}, {}]}, {
        'Party': [{'@type': 'ElectionResults.Party', 'Color': 'a'}], 'Office': [{'@type': 'ElectionResults.Office'}] * 2}, []),
    'attributes in one member': ({'GpUnit': {'@attributes': {'xsi:type': 'n:ReportingUnit', 'ObjectId': 'a'}}},
                                 {'GpUnit': [{'@type': 'ElectionResults.ReportingUnit', '@id': 'a'}]}, []),
    'two classes': ({'GpUnit': {'xsi:type': 'ReportingDevice', '@xsi:type': 'ReportingUnit'}}, {'GpUnit': [{'@type': 'ElectionResults.ReportingUnit'}]},
                    ['/ElectionReport/GpUnit[1]: two classes are named; the first counts']),
    'a text beside an attribute': ({'Party': {'Name': {'Text': {'@Language': 'en', '#text': 'Blue'}}}}, {'Party': [{
        '@type': 'ElectionResults.Party', 'Name': {'@type': 'ElectionResults.InternationalizedText', 'Text': [
            {'@type': 'ElectionResults.LanguageString', 'Language': 'en', 'Content': 'Blue'}]}}]}, []),
    'false': ({'IsTest': False}, {'IsTest': False}, []),
    'nil': ({'Notes': {'xsi:nil': 'true'}}, {'Notes': None}, []),
    'null': ({'Notes': None}, {'Notes': None}, []),
    'a number': ({'SequenceEnd': 7}, {'SequenceEnd': 7}, []),
    'true': ({'IsTest': True}, {'IsTest': True}, []),
    'a class beside the attributes': ({'GpUnit': {'xsi:type': 'ReportingUnit', '@ObjectId': 'a'}},
                                      {'GpUnit': [{'@type': 'ElectionResults.ReportingUnit', '@id': 'a'}]}, []),
    'prefixes': ({'@xmlns:y': 'urn:y', 'n:Notes': 'a', 'y:Notes': 'b'}, {'Notes': 'a', 'y:Notes': 'b'}, [f'/ElectionReport/y:Notes: {CARRIED_AS_IT_IS}']),
}


@pytest.mark.parametrize('members, wanted, told', BORN.values(), ids=ids_of(BORN))
def test_values_of_json(members, wanted, told):
    root = {'@xmlns:n': 'http://itl.nist.gov/ns/voting/1500-100/v2', '@xsi:schemaLocation': 'a b', **members}
    found = from_xml.convert(json.dumps({'?xml': {}, 'n:ElectionReport': root}).encode('ascii'))
    assert json.loads(found.form) == {'@type': 'ElectionResults.ElectionReport', **wanted}
    assert [f'{it.place}: {it.words}' for it in found.told] == told and all(it.line is None for it in found.told)


# What is made from XML by its root, by its attributes, or not at all.
ROOTS = {
    'a root without a namespace': ({'ElectionReport': {'Notes': 'a'}}, [('/ElectionReport', None, 'no namespace; it is read as version 2')]),
    'the members of a root, by their attributes': ({'@attributes': {'xmlns': 'http://itl.nist.gov/ns/voting/1500-100/v2'}, 'Notes': 'a'}, []),
    'the members of a root, by one attribute': ({'@xmlns': 'http://itl.nist.gov/ns/voting/1500-100/v2', 'Notes': 'a'}, []),
}


@pytest.mark.parametrize('tree, told', ROOTS.values(), ids=ids_of(ROOTS))
def test_roots_of_json(tree, told):
    found = from_xml.convert(json.dumps(tree).encode('ascii'))
    assert (json.loads(found.form), found.told, found.version) == ({'@type': 'ElectionResults.ElectionReport', 'Notes': 'a'}, told, 2)


@pytest.mark.parametrize('tree', [{'Notes': 'a'}, {'ElectionReport': 'a'}, {'ElectionReport': {}, 'Other': {}}, [], {'Ballot': {'@xmlns': 'a'}}])
def test_json_that_was_not_made_from_xml(tree):
    with pytest.raises(from_xml.NotXml, match='^JSON, and not made from XML$'):
        from_xml.convert(json.dumps(tree).encode('ascii'))


def test_json_that_no_converter_makes():
    for inner in ({'@X': []}, {'@attributes': []}, {'#text': {}}):
        with pytest.raises(from_xml.NotXml, match='^JSON that no usual converter makes of XML$'):
            from_xml.convert(json.dumps({'ElectionReport': {'Notes': inner}}).encode('ascii'))


def test_a_name_that_json_has_twice():
    found = from_xml.convert(b'{"ElectionReport":{"@xmlns":"http://itl.nist.gov/ns/voting/1500-100/v2","Notes":"a","Notes":"b"}}')
    assert found.told == [('/ElectionReport/Notes', None, 'a name that is written twice in one object; the last counts')]


LAUGHS = b'<!DOCTYPE a [<!ENTITY a "ha">' + b''.join(b'<!ENTITY %c "%s">' % (98 + at, b'&%c;' % (97 + at) * 10) for at in range(20)) + b']>'
OPEN = f'<ElectionReport {SPACE}>'.encode('ascii')
CLOSE = b'</ElectionReport>'
LONG_TAG = 'a tag has more than 262144 bytes'
HOSTILE = {
    'a billion laughs': (lambda: LAUGHS + b'<a>&u;</a>', 'a DOCTYPE is not read'),
    'an external entity': (lambda: b'<!DOCTYPE a [<!ENTITY x SYSTEM "file:///etc/passwd">]><a>&x;</a>', 'a DOCTYPE is not read'),
    'an external type': (lambda: b'<!DOCTYPE a SYSTEM "http://localhost:1/a.dtd"><a/>', 'a DOCTYPE is not read'),
    'another entity': (lambda: OPEN + b'&nbsp;' + CLOSE, 'line 1, column 121: undefined entity'),
    'a million attributes': (lambda: b'<ElectionReport ' + b' '.join(b'a%d=""' % at for at in range(10 ** 6)) + b'/>', LONG_TAG),
    'a million attributes of a million elements': (lambda: OPEN + b'<a b=""/>' * 10 ** 6 + CLOSE,
                                                   'more than 20000 places are not understood'),
    'a depth of 100,000': (lambda: OPEN + b'<a>' * 10 ** 5, 'nested deeper than 127 levels of JSON'),
    'a DOCTYPE in UTF-16': (lambda: '<!DOCTYPE a><a/>'.encode('utf-16'), 'a DOCTYPE is not read'),
    'a depth of 100,000 of JSON': (lambda: b'{"ElectionReport":' * 10 ** 5 + b'}' * 10 ** 5, 'neither XML nor JSON'),
    'a long comment': (lambda: OPEN + b'<!--' + b' ' * 10 ** 7 + b'-->' + CLOSE, LONG_TAG),
    'a long name': (lambda: OPEN + b'<' + b'a' * 10 ** 7, LONG_TAG),
    'Windows-1252': (lambda: b'<?xml version="1.0" encoding="Windows-1252"?><a/>',
                     'the encoding Windows-1252 is not read; UTF-8 and UTF-16 are'),
    'UTF-7': (lambda: b'<?xml version="1.0" encoding="UTF-7"?><a/>', 'the encoding UTF-7 is not read; UTF-8 and UTF-16 are'),
    'UTF-16 that is not': (lambda: b'<?xml version="1.0" encoding="UTF-16"?><a/>',
                           'line 1, column 31: encoding specified in XML declaration is incorrect'),
    'UTF-8 that is not': (lambda: OPEN + b'\xff' + CLOSE, 'line 1, column 121: not well-formed (invalid token)'),
    'UTF-32': (lambda: '<a/>'.encode('utf-32'), 'line 1, column 2: not well-formed (invalid token)'),
    'another root': (lambda: b'<Ballot/>', 'the root is no ElectionReport of version 1 or 2 of NIST SP 1500-100'),
    'another namespace': (lambda: b'<ElectionReport xmlns="urn:x"/>', 'the root is no ElectionReport of version 1 or 2 of NIST SP 1500-100'),
    'nothing': (lambda: b'', 'line 1, column 1: no element found'),
    'cut off': (lambda: OPEN + b'<GpUnit>', 'line 1, column 129: no element found'),
    'JSON': (lambda: b'{"@type": "ElectionResults.ElectionReport"}', 'JSON, and not made from XML'),
}


# Begins a program, and writes to a file what it has used. What `wait4` says of a process has the memory of the one that began it,
# and that of the tests is large.
MEASURED = """
import os, pathlib, subprocess, sys
began = subprocess.Popen(sys.argv[2:])
_, status, used = os.wait4(began.pid, 0)
pathlib.Path(sys.argv[1]).write_text(f'{used.ru_utime + used.ru_stime} {used.ru_maxrss / 1024}')
os._exit(os.WEXITSTATUS(status))
"""


def run(path, *words):
    """The status of the command, what it writes, the seconds that it takes and the megabytes that it holds."""
    room = path.parent / 'used'
    command = [sys.executable, '-m', 'erd.from_xml', *words, str(path)]
    ran = subprocess.run([sys.executable, '-c', MEASURED, str(room), *command], stdin=subprocess.DEVNULL, stdout=subprocess.PIPE,
                         stderr=subprocess.PIPE)
    seconds, megabytes = map(float, room.read_text().split())
    return ran.returncode, ran.stdout, ran.stderr.decode('utf-8'), seconds, megabytes


@pytest.mark.skipif(not hasattr(os, 'wait4'), reason='only POSIX says what a process has used')
@pytest.mark.parametrize('make, why', HOSTILE.values(), ids=ids_of(HOSTILE))
def test_hostile_xml_ends_with_one_sentence(tmp_path, make, why):
    path = tmp_path / 'a.xml'
    path.write_bytes(make())
    status, out, err, seconds, megabytes = run(path)
    assert (status, out, err) == (2, b'', f'not XML that is converted: {why}\n')
    assert seconds < 1 and megabytes < 200


@pytest.mark.skipif(not os.path.exists('/dev/full'), reason='only Linux has a device that is full')
def test_command(tmp_path):
    path = tmp_path / 'a.xml'
    strange = '/ElectionReport/X (line 1): an element that is not understood here; it is carried as it is\n'
    for inner, first, wanted in (('', '', 0), ('<X/>', strange, 1)):
        xml = f'<ElectionReport {SPACE}>{inner}</ElectionReport>'.encode('utf-8')
        path.write_bytes(xml)
        status, out, err, _, _ = run(path)
        assert (status, out) == (wanted, from_xml.convert(xml).form)
        assert err == (f'{first}converted from XML by a program that no proof covers\nSHA-256 before: {hashlib.sha256(xml).hexdigest()}\n'
                       f'SHA-256 after:  {hashlib.sha256(out).hexdigest()}\n')
    with open('/dev/full', 'wb') as full:
        ran = subprocess.run([sys.executable, '-m', 'erd.from_xml', str(path)], stdout=full, stderr=subprocess.PIPE, check=False)
    assert (ran.returncode, ran.stderr.splitlines()[-1]) == (3, b'write failed')
    assert run(tmp_path / 'none')[:3] == (3, b'', f'cannot open\n{tmp_path / "none"}\n')
    assert run(path, '--nosuch')[0] == 3


def test_too_long():
    with pytest.raises(erd.TooLong):
        from_xml.convert(b' ' * 67108865)


def test_what_is_told_is_bounded():
    found = from_xml.convert(OPEN + b'<X/>' * 15000 + CLOSE)
    assert (len(found.told), found.all_told) == (1000, 15000)
    assert from_xml.convert(OPEN + b'<X/>' * 20000 + CLOSE).all_told == 20000
    with pytest.raises(from_xml.NotXml, match='^more than 20000 places are not understood$'):
        from_xml.convert(OPEN + b'<X/>' * 20001 + CLOSE)


def test_what_is_told_at_long_places_is_fewer():
    # A place has some 1,100 characters, so that a thousand of them are more than a megabyte.
    opened = b'<Election><BallotStyle>' + b'<OrderedContent xsi:type="OrderedHeader">' * 60
    found = from_xml.convert(OPEN + opened + b'<X/>' * 1500 + b'</OrderedContent>' * 60 + b'</BallotStyle></Election>' + CLOSE)
    assert 800 < len(found.told) < 1000 and found.all_told == 1500
    assert sum(len(it.place) + len(it.words) for it in found.told[:-1]) < 2 ** 20 <= sum(len(it.place) + len(it.words) for it in found.told)


def test_levels():
    def nested(depth):
        return OPEN + b'<X>' * depth + b'a' + b'</X>' * depth + CLOSE

    assert from_xml.convert(nested(127)).all_told == 1
    with pytest.raises(from_xml.NotXml, match='^nested deeper than 127 levels of JSON$'):
        from_xml.convert(nested(128))


def test_erd_reads_no_xml():
    assert erd.check(xml_of(REPORTS['primary']())).lines == ('not JSON',)


def test_examples_in_the_comments():
    assert doctest.testmod(from_xml).failed == 0
