"""Makes the JSON form of a report from what a reader of XML meets: the beginnings of elements, texts, and ends of elements.

The table says what each member is. What it doesn't list is carried as far as it can be, and told with its place. Nothing here calls
itself: an element that is open is a frame on a list.
"""

from __future__ import annotations

import re
from sys import intern
from typing import Callable, Dict, List, NamedTuple, Optional, Tuple, Union

from ..tree import MOST_LEVELS, WrittenNumber
from .table import (ATTRIBUTES, COLLECTIONS, OLD_ATTRIBUTES, TEXT_MEMBER, Shape, class_by_default, old_names_of, shapes_of)

PREFIX = 'ElectionResults.'
ROOT = 'ElectionReport'
BLANKS = ' \t\r\n'
MOST_TOLD = 1000
# A file of which more is not understood is of another kind.
MOST_NOT_UNDERSTOOD = 20000
# No further place is told once those before it have so many characters.
ENOUGH_TEXT = 2 ** 20
MOST_OF_NAME = 80
FLAGS = {'true': True, '1': True, 'false': False, '0': False}
WHOLE = re.compile(r'[+-]?[0-9]{1,30}\Z')
NUMBER = re.compile(r'-?(?:0|[1-9][0-9]{0,300})(?:\.[0-9]+)?(?:[eE][+-]?[0-9]{1,2})?\Z')
UNKNOWN = Shape('unknown')
COLLECTION = Shape('collection')
IDENTITY = Shape('text')
WORDS = re.compile(f'[^{BLANKS}]+')
TYPE, NIL = 'xsi:type', 'xsi:nil'

NO_SHAPES: Dict[str, Shape] = {}
NO_NAMES: Dict[str, str] = {}

Value = Union[None, bool, str, WrittenNumber, List['Value'], Dict[str, 'Value']]


class NotXml(ValueError):
    """The bytes are no XML that is converted. It says why, in a few words."""


class Told(NamedTuple):
    """What the converter did not understand."""

    place: str
    """The elements from the root on; a number tells which of several with one name."""
    line: Optional[int]
    """The line of the XML, or None if it came as JSON."""
    words: str
    """What was not understood, and what became of it."""


class Several(List[Value]):
    """The values of what stands in the XML more than once, where it should stand once."""


class Frame:
    """An element that is open."""

    __slots__ = ('name', 'number', 'holder', 'member', 'shape', 'type', 'shapes', 'old', 'members', 'texts', 'counts', 'levels',
                 'is_nil', 'is_carried')

    def __init__(self, name: str, number: int, holder: Optional[Frame], member: str, shape: Shape) -> None:
        self.name, self.number, self.holder, self.member, self.shape = name, number, holder, member, shape
        self.type: Optional[str] = None
        self.shapes: Dict[str, Shape] = NO_SHAPES
        self.old: Dict[str, str] = NO_NAMES
        self.members: Dict[str, Value] = {}
        self.texts: List[str] = []
        self.counts: Dict[str, int] = {}
        self.levels = 0
        self.is_nil = self.is_carried = False

    @property
    def step(self) -> str:
        """This element as a step of a place."""
        name = self.name if len(self.name) <= MOST_OF_NAME else self.name[:MOST_OF_NAME] + '..'
        return f'/{name}[{self.number}]' if self.shape.is_list or self.number > 1 else f'/{name}'


class Converter:
    """Takes what a reader meets, in its order. `line` returns the line that the reader is at."""

    def __init__(self, version: int, line: Callable[[], Optional[int]]) -> None:
        self.version, self.line = version, line
        self.told: List[Told] = []
        self.all_told = self.told_text = 0
        top = Frame('', 1, None, '', UNKNOWN)
        top.shapes = {ROOT: Shape('object', (ROOT,))}
        self.frames = [top]

    @property
    def report(self) -> Value:
        """The report, once the root has ended."""
        return self.frames[0].members[ROOT]

    def tell(self, words: str, place: Optional[str] = None) -> None:
        """Tells what was not understood: at the element that is open, or at a place that is named."""
        self.all_told += 1
        if self.all_told > MOST_NOT_UNDERSTOOD:
            raise NotXml(f'more than {MOST_NOT_UNDERSTOOD} places are not understood')
        if len(self.told) < MOST_TOLD and self.told_text < ENOUGH_TEXT:
            place = ''.join(frame.step for frame in self.frames[1:]) if place is None else place
            self.told.append(Told(place, self.line(), words))
            self.told_text += len(place) + len(words)

    def start(self, name: str, attributes: List[Tuple[str, str]]) -> None:
        """Begins an element. Its name, that of its class and those of attributes are without a namespace if they are of the standard."""
        frame = self.opened(self.frames[-1], name)
        self.frames.append(frame)
        self.take_class(frame, [value for attribute, value in attributes if attribute == TYPE])
        if frame.levels - (not frame.shape.is_object and not attributes) > MOST_LEVELS:
            raise NotXml(f'nested deeper than {MOST_LEVELS} levels of JSON')
        for attribute, value in attributes:
            if attribute == NIL and value.strip(BLANKS) in FLAGS:
                frame.is_nil = FLAGS[value.strip(BLANKS)]
            elif attribute != TYPE:
                self.take_attribute(frame, attribute, value)

    def text(self, words: str) -> None:
        """Takes a part of the text of the element that is open."""
        self.frames[-1].texts.append(words)

    def end(self) -> None:
        """Ends the element that is open."""
        frame = self.frames[-1]
        if frame.shape is COLLECTION:
            self.leave_text(frame)
        else:
            self.add(frame.holder, frame.member, frame.shape, self.value_of(frame))
        self.frames.pop()

    def opened(self, parent: Frame, name: str) -> Frame:
        """Returns the frame of an element that begins inside another one."""
        number = parent.counts[name] = parent.counts.get(name, 0) + 1
        holder = parent.holder if parent.shape is COLLECTION else parent
        member, shape = self.known(parent, holder, name)
        frame = Frame(name, number, holder, member, shape)
        frame.is_carried = shape is UNKNOWN
        frame.levels = holder.levels + 1 + shape.is_list
        if shape is COLLECTION:
            frame.levels = holder.levels
        elif frame.is_carried and not parent.is_carried:
            self.frames.append(frame)
            self.tell('an element that is not understood here; it is carried as it is')
            self.frames.pop()
        return frame

    def known(self, parent: Frame, holder: Frame, name: str) -> Tuple[str, Shape]:
        """Returns the member that an element is, and its shape."""
        if parent.shape is COLLECTION:
            return (name, holder.shapes[name]) if name == COLLECTIONS[parent.name] else (name, UNKNOWN)
        if name in holder.shapes:
            return name, holder.shapes[name]
        if self.version == 1 and COLLECTIONS.get(name) in holder.shapes:
            return name, COLLECTION
        return (holder.old[name], holder.shapes[holder.old[name]]) if name in holder.old else (name, UNKNOWN)

    def take_class(self, frame: Frame, named: List[str]) -> None:
        """Finds the class of an element: the one that it names, or that of the schema."""
        classes = frame.shape.classes
        frame.type = named[0] if named else class_by_default(frame.name, classes)
        if frame.type in classes:
            classes = (frame.type,)
        elif named and not self.is_told(frame):
            self.tell('a class that is not understood here')
        elif frame.shape.is_object:
            self.tell('no class is named')
        if len(named) > 1:
            self.tell('two classes are named; the first counts')
        frame.shapes = shapes_of(classes)
        if self.version == 1:
            frame.old = old_names_of(classes)

    def is_told(self, frame: Frame) -> bool:
        """Whether it has been told that the element which is open is carried, as a part of another one."""
        return frame.is_carried and self.frames[-2].is_carried

    def take_attribute(self, frame: Frame, name: str, value: str) -> None:
        """Takes an attribute as a member."""
        member = (OLD_ATTRIBUTES if self.version == 1 else ATTRIBUTES).get(name, '')
        if member == '@id' and frame.shape.is_object:
            self.add(frame, member, IDENTITY, value)
        elif member in frame.shapes:
            self.add(frame, member, frame.shapes[member], value)
        elif frame.shape is COLLECTION:
            self.tell(f'the attribute {name[:MOST_OF_NAME]} is not understood here; it is left out')
        else:
            if not self.is_told(frame):
                self.tell(f'the attribute {name[:MOST_OF_NAME]} is not understood here; it is carried as a member')
            self.add(frame, name, UNKNOWN, value)

    def add(self, holder: Frame, member: str, shape: Shape, value: Value) -> None:
        """Adds the value of an element or an attribute to the members of its holder."""
        members = holder.members
        if member in members and shape is not UNKNOWN and (not shape.is_list or shape.word == 'references'):
            self.tell(f'{member[:MOST_OF_NAME]} stands here more than once; all are carried')
        if shape.is_list and not isinstance(members.get(member), list):
            members[member] = [members[member]] if member in members else []
        if shape.word == 'references' and isinstance(value, list):
            members[member].extend(value)
        elif shape.is_list or isinstance(members.get(member), Several):
            members[member].append(value)
        elif member in members:
            members[member] = Several([members[member], value])
        else:
            members[member] = value

    def value_of(self, frame: Frame) -> Value:
        """Returns the value of an element that ends."""
        words, shape = ''.join(frame.texts), frame.shape
        if frame.is_nil and not frame.members and not words.strip(BLANKS):
            return None
        if frame.is_nil:
            self.tell('said to be nil, and not empty; what it has is carried')
        if shape.is_object or shape.may_be_text and frame.members:
            return self.object_of(frame, words)
        if frame.members or shape is UNKNOWN and frame.type is not None:
            return {**typed(frame), **frame.members, **({'#text': words} if words.strip(BLANKS) else {})}
        return self.scalar_of(shape.word, words)

    def object_of(self, frame: Frame, words: str) -> Value:
        """Returns an object of a class."""
        if TEXT_MEMBER in frame.shapes and (words.strip(BLANKS) or TEXT_MEMBER not in frame.members):
            self.add(frame, TEXT_MEMBER, frame.shapes[TEXT_MEMBER], words)
        elif TEXT_MEMBER not in frame.shapes:
            self.leave_text(frame)
        return {**typed(frame), **frame.members}

    def leave_text(self, frame: Frame) -> None:
        """Tells of a text among elements."""
        if ''.join(frame.texts).strip(BLANKS):
            self.tell('a text among elements is left out')

    def scalar_of(self, word: str, words: str) -> Value:
        """Returns the value of an element that has only text."""
        bare = words.strip(BLANKS)
        if word == 'references':
            return WORDS.findall(bare)
        if word == 'reference':
            if len(WORDS.findall(bare)) != 1:
                self.tell('not one reference; the text is carried')
            return bare
        if word == 'flag':
            return self.understood(FLAGS.get(bare), words, 'neither true nor false')
        if word == 'whole':
            return self.understood(WrittenNumber(str(int(bare))) if WHOLE.match(bare) else None, words, 'no whole number')
        if word == 'number':
            return self.understood(WrittenNumber(bare) if NUMBER.match(bare) else None, words, 'no number')
        return words

    def understood(self, value: Value, words: str, why: str) -> Value:
        """Returns the value, or the text if there is none, which it tells."""
        if value is None:
            self.tell(f'{why}; the text is carried')
            return words
        return value


def typed(frame: Frame) -> Dict[str, Value]:
    """Returns the member that has the class of an element, if it has one."""
    return {} if frame.type is None else {'@type': intern(PREFIX + frame.type)}


__all__ = ['BLANKS', 'Converter', 'NIL', 'NotXml', 'ROOT', 'TYPE', 'Told', 'Value']
