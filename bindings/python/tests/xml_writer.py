"""Writes reports as XML, for the tests: by the names of the members, from memory of the public schema, and without the converter's
table. And makes JSON of XML as the usual converters do, and XML in which an element is dropped or doubled."""

import copy
import json
from xml.etree import ElementTree
from xml.sax.saxutils import escape, quoteattr

import erd

INSTANCE = 'http://www.w3.org/2001/XMLSchema-instance'
# The schema has classes that are abstract there, or have a class below them, so that elements name theirs.
NAMES_CLASS = ('GpUnit', 'Contest', 'ContestSelection', 'OrderedContent', 'OrderedContest', 'BallotSelection')
IS_ATTRIBUTE = ('@id', 'Language', 'Annotation', 'Label')
COLLECTED = ('BallotStyle', 'Candidate', 'Contest', 'GpUnit', 'Office', 'Party', 'Person')
OLD = {'ContestSelection': 'BallotSelection', 'ElectionDistrictId': 'ElectoralDistrictId',
       'OrderedContestSelectionIds': 'OrderedBallotSelectionIds', 'OrderedContent': 'OrderedContest'}
# What is around the ballots.
ENVELOPE = ['Format', 'GeneratedDate', 'Issuer', 'IssuerAbbreviation', 'VendorApplicationId', 'Notes', 'SequenceStart', 'SequenceEnd',
            'ExternalIdentifier']


def xml_of(report, version=2, encoding='UTF-8'):
    """A report as XML of a version, as bytes."""
    return (f'<?xml version="1.0" encoding="{encoding}"?>\n<!-- <a> -->'
            + element('ElectionReport', report, version, f' xmlns="http://itl.nist.gov/ns/voting/1500-100/v{version}" xmlns:xsi="{INSTANCE}"'
                      f' xsi:schemaLocation="a b"')).encode(encoding)


def element(name, value, version, more=''):
    """A member as its elements."""
    if isinstance(value, list) and not name.endswith('Ids'):
        return collected(name, ''.join(element(name, entry, version) for entry in value), version)
    if version == 1:
        name = OLD.get(name, name)
    if value is None:
        return f'<{name} xsi:nil="true"/>\n'
    if isinstance(value, dict):
        attributes, inner = parts(name, value, version)
        return f'<{name}{more}{attributes}>{inner}</{name}>\n'
    return f'<{name}>{words(value)}</{name}>\n'


def collected(name, elements, version):
    if version == 2 or not elements:
        return elements
    outer = 'ExternalIdentifiers' if name == 'ExternalIdentifier' else f'{name}Collection' if name in COLLECTED else None
    return f'<{outer}>\n{elements}</{outer}>\n' if outer else elements


def parts(name, value, version):
    """The attributes of an object, and what stands inside its element."""
    class_name = value.get('@type', '').split('.')[-1]
    attributes = f' xsi:type="{class_name}"' if name in NAMES_CLASS or class_name == 'Coalition' else ''
    for member in IS_ATTRIBUTE:
        if member in value:
            attribute = 'ObjectId' if member == '@id' else member
            attribute = attribute if version == 2 else attribute[0].lower() + attribute[1:]
            attributes += f' {attribute}={quoteattr(value[member])}'
    inner = [(member, inner) for member, inner in value.items() if member not in IS_ATTRIBUTE and member != '@type']
    if [member for member, _ in inner] == ['Content']:
        return attributes, words(inner[0][1])
    return attributes, '\n' + ''.join(element(member, held, version) for member, held in inner)


def words(value):
    """A value as a text."""
    if isinstance(value, list):
        return ' '.join(value)
    text = str(value).lower() if isinstance(value, bool) else str(value)
    return f'<![CDATA[{text}]]>' if text.startswith('<') and ']]>' not in text else escape(text, {'\r': '&#13;'})


def born_of(xml, form):
    """XML as a usual converter makes JSON of it: `at` writes attributes as members, `attributes` in one member and leaves the root out."""
    root = ElementTree.fromstring(xml)
    space = root.tag[1:].split('}')[0]
    root.set('xmlns', space)
    value = member_of(root, form)
    return json.dumps({'ElectionReport': value} if form == 'at' else value).encode('ascii')


def attributes_in(form, attributes):
    if form == 'at':
        return {f'@{name}': value for name, value in attributes.items()}
    return {'@attributes': attributes} if attributes else {}


def member_of(node, form):
    members = attributes_in(form, {name.replace(f'{{{INSTANCE}}}', 'xsi:'): value for name, value in node.attrib.items()})
    text = node.text or ''
    if not members and not len(node):
        return text
    for inner in node:
        name = inner.tag.split('}')[-1]
        held = member_of(inner, form)
        if name in members:
            members[name] = [*(members[name] if isinstance(members[name], list) else [members[name]]), held]
        else:
            members[name] = held
    return {**members, '#text': text} if text.strip() or not len(node) else members


def mutant_of(xml, dice):
    """The XML with an element that is dropped or doubled."""
    root = ElementTree.fromstring(xml)
    parent, at = dice.choice([(node, at) for node in root.iter() for at in range(len(node))])
    if dice.random() < 0.5:
        del parent[at]
    else:
        parent.insert(at, copy.deepcopy(parent[at]))
    return ElementTree.tostring(root)


def seen(whole, form, told):
    """How it is seen that an element is missing, or there twice: in what is told of the XML, or in its JSON form beside that of the whole."""
    if told:
        return 'told'
    compared = erd.compare(whole, form)
    if not compared.same:
        return 'fault' if compared.refused else 'difference'
    left, right = json.loads(whole), json.loads(form)
    # What is around the ballots has no meaning for erd: only the JSON shows it.
    return 'around' if any(left.get(name) != right.get(name) for name in ENVELOPE) else None
