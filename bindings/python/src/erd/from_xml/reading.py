"""Reads XML by expat, the reader of the standard library, and refuses what a report has no need of: a DOCTYPE, so that there are no
entities but the five of XML; and every encoding but UTF-8 and UTF-16."""

from __future__ import annotations

from typing import Dict, List, NoReturn, Optional, Tuple
from xml.parsers import expat

from .converting import BLANKS, NIL, ROOT, TYPE, Converter, NotXml

STANDARD = 'http://itl.nist.gov/ns/voting/1500-100/v'
VERSIONS = {f'{STANDARD}1': 1, f'{STANDARD}2': 2}
INSTANCE = 'http://www.w3.org/2001/XMLSchema-instance'
INSTANCE_NAMES = {f'{INSTANCE} type': TYPE, f'{INSTANCE} nil': NIL}
# What says where a schema is, and nothing of the report.
PASSED_OVER = {f'{INSTANCE} schemaLocation', f'{INSTANCE} noNamespaceSchemaLocation'}
NO_NAMESPACE = 'no namespace; it is read as version 2'
ENCODINGS = ('UTF-8', 'UTF-16', 'UTF-16LE', 'UTF-16BE')
PART = 1 << 16
# A tag, a comment or a processing instruction may have so many bytes.
MOST_OF_TAG = 1 << 18


class _Reader:
    """Hands what expat meets to a converter."""

    def __init__(self) -> None:
        self.parser = expat.ParserCreate(namespace_separator=' ')
        self.parser.ordered_attributes = self.parser.buffer_text = True
        self.parser.XmlDeclHandler = self.declared
        self.parser.StartDoctypeDeclHandler = self.doctype
        self.parser.StartNamespaceDeclHandler = self.bound
        self.parser.EndNamespaceDeclHandler = self.unbound
        self.parser.StartElementHandler = self.root
        self.converter: Optional[Converter] = None
        self.namespace = ''
        # The namespaces of each prefix: the last counts.
        self.spaces: Dict[Optional[str], List[Optional[str]]] = {}

    def declared(self, _: str, encoding: Optional[str], __: int) -> None:
        if encoding is not None and encoding.upper() not in ENCODINGS:
            raise NotXml(f'the encoding {encoding[:40]} is not read; UTF-8 and UTF-16 are')

    def doctype(self, *_: object) -> NoReturn:
        raise NotXml('a DOCTYPE is not read')

    def bound(self, prefix: Optional[str], namespace: Optional[str]) -> None:
        self.spaces.setdefault(prefix, []).append(namespace)

    def unbound(self, prefix: Optional[str]) -> None:
        self.spaces[prefix].pop()

    def root(self, name: str, attributes: List[str]) -> None:
        """Begins the root, whose namespace is that of a version."""
        namespace, _, local = name.rpartition(' ')
        if local != ROOT or namespace and namespace not in VERSIONS:
            raise NotXml('the root is no ElectionReport of version 1 or 2 of NIST SP 1500-100')
        self.namespace = namespace
        self.converter = Converter(VERSIONS.get(namespace, 2), lambda: self.parser.CurrentLineNumber)
        self.parser.StartElementHandler = self.start
        self.parser.EndElementHandler = self.end
        self.parser.CharacterDataHandler = self.converter.text
        self.start(name, attributes)
        if not namespace:
            self.converter.tell(NO_NAMESPACE)

    def start(self, name: str, attributes: List[str]) -> None:
        pairs = [(attribute_name(inner), value) for inner, value in zip(attributes[::2], attributes[1::2]) if inner not in PASSED_OVER]
        self.converter.start(self.local(name), [(inner, self.class_named(value) if inner == TYPE else value) for inner, value in pairs])

    def class_named(self, value: str) -> str:
        """Returns a class without its prefix, if that stands for the namespace of the root. One without a prefix is of the standard."""
        prefix, _, local = value.strip(BLANKS).rpartition(':')
        return local if not prefix or self.spaces.get(prefix, [])[-1:] == [self.namespace] else value

    def end(self, _: str) -> None:
        self.converter.end()

    def local(self, name: str) -> str:
        """Returns the name of an element: without its namespace, if that is the root's."""
        namespace, _, local = name.rpartition(' ')
        return local if namespace == self.namespace else f'{{{namespace}}}{local}'

    def read(self, data: bytes) -> Converter:
        """Reads a whole file."""
        for begin in range(0, len(data), PART):
            part = data[begin:begin + PART]
            self.parser.Parse(part, False)
            if begin + len(part) - self.parser.CurrentByteIndex > MOST_OF_TAG:
                raise NotXml(f'a tag has more than {MOST_OF_TAG} bytes')
        self.parser.Parse(b'', True)
        assert self.converter is not None  # what has no root is no XML
        return self.converter


def attribute_name(name: str) -> str:
    """Returns the name of an attribute: as it is, if it has no namespace."""
    if name in INSTANCE_NAMES:
        return INSTANCE_NAMES[name]
    namespace, _, local = name.rpartition(' ')
    return f'{{{namespace}}}{local}' if namespace else name


def read_xml(data: bytes) -> Converter:
    """Reads XML, and returns the converter that has taken it. Raises NotXml if it is no XML, or no report."""
    reader = _Reader()
    try:
        return reader.read(data)
    except expat.ExpatError as error:
        words = expat.ErrorString(error.code)
        if words == expat.errors.XML_ERROR_NO_MEMORY:
            raise MemoryError() from None
        raise NotXml(f'line {error.lineno}, column {error.offset + 1}: {words}') from None


__all__ = ['NO_NAMESPACE', 'VERSIONS', 'read_xml']
