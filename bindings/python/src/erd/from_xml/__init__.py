"""Converts the XML form of a report to the JSON form that `erd` reads. No proof covers this: it stands before what is proved.

>>> from erd import from_xml
>>> found = from_xml.convert(b'''<ElectionReport xmlns="http://itl.nist.gov/ns/voting/1500-100/v2">
... <Status>pre-election</Status><X/></ElectionReport>''')
>>> found.form
b'{"@type":"ElectionResults.ElectionReport","Status":"pre-election","X":""}\\n'
>>> [(told.place, told.line) for told in found.told]
[('/ElectionReport/X', 2)]

It takes version 2 of NIST SP 1500-100, and version 1 where a class and a member have the same meaning; and JSON that a usual converter
made from such XML. The classes that the profile of `erd` does not list were written from memory of the public schema.
"""

from __future__ import annotations

import hashlib
from dataclasses import dataclass
from typing import List

from ..library import TooLong
from ..repeats import repeated_names
from ..streams import MOST_BYTES
from ..tree import NotJson, read_tree, without_mark, written
from .born import read_born, root_of
from .converting import MOST_NOT_UNDERSTOOD, Converter, NotXml, Told
from .reading import read_xml

__all__ = ['Converted', 'NotXml', 'Told', 'WORDS', 'convert']

WORDS = 'converted from XML by a program that no proof covers'


@dataclass(frozen=True)
class Converted:
    """A report in its JSON form, and what was not understood of its XML."""

    form: bytes
    told: List[Told]
    """What was not understood: at most a thousand, and fewer if their texts together have more than a megabyte."""
    all_told: int
    """How many there are."""
    version: int
    """The version of the standard that the XML has."""
    sha256_of_xml: str
    sha256_of_form: str

    @property
    def is_whole(self) -> bool:
        """Whether all was understood."""
        return self.all_told == 0


def convert(data: bytes) -> Converted:
    """Converts XML, or JSON that was made from XML.

    Comments, processing instructions, declarations of namespaces and places of schemas are passed over, and so are blanks among elements.
    Texts stay as they are written. Work grows with the length of the XML; memory is some 11 times that of a usual file, and up to 60 times
    that of one made of the shortest elements.

    Raises NotXml, with the reason in a few words, if it is no XML, has a DOCTYPE, another encoding than UTF-8 and UTF-16, or another root
    than an ElectionReport; and TooLong if it has more than 67,108,864 bytes.
    """
    if len(data) > MOST_BYTES:
        raise TooLong()
    converter = taken(data)
    form = f'{written(converter.report)}\n'.encode('utf-8')
    sums = [hashlib.sha256(each).hexdigest() for each in (data, form)]
    return Converted(form, converter.told, converter.all_told, converter.version, *sums)


def taken(data: bytes) -> Converter:
    """Returns the converter that has taken the bytes."""
    if without_mark(data).lstrip(b' \t\r\n')[:1] not in (b'{', b'['):
        return read_xml(data)
    try:
        root = root_of(read_tree(data))
    except NotJson:
        raise NotXml('neither XML nor JSON') from None
    if root is None:
        raise NotXml('JSON, and not made from XML')
    converter = read_born(root)
    for repeated in repeated_names(without_mark(data), most=MOST_NOT_UNDERSTOOD):
        converter.tell('a name that is written twice in one object; the last counts', repeated.pointer)
    return converter
