#!/usr/bin/env python3
"""Lists the names that are written more than once in one object of a JSON file.

usage: repeated-names.py FILE ..

JSON says nothing of an object in which a name is written twice. erd reads the last value of such a name, and passes over the
others; another program may read the first. So two files can mean the same to erd, and another thing to someone else. This
script needs Python 3 and nothing else. It prints a line for each such name: the file, the place as a JSON Pointer, and how
often the name is written. It is no part of what is proved.

Of a long list it prints the beginning, and how many names are left.

The exit status is 0 if no name is repeated, 1 if one is, 2 if a file is not JSON, and 3 if one cannot be read, or a write fails.
"""

from __future__ import annotations

import json
import os
import sys
from dataclasses import dataclass
from typing import Iterator, List, NoReturn, Optional, Tuple, Union

Step = Union[str, int]
MOST_NAMES = 1000
# No further name is listed once the places of those before it have so many characters.
ENOUGH_TEXT = 2 ** 20
STANDARD_OUTPUT, STANDARD_ERROR = 1, 2


@dataclass(frozen=True)
class RepeatedName:
    """A name that is written more than once in one object, and its last place in JSON Pointer's steps."""

    place: Tuple[Step, ...]
    times: int

    @property
    def pointer(self) -> str:
        """The place as a JSON Pointer (RFC 6901)."""
        return ''.join('/' + str(step).replace('~', '~0').replace('/', '~1') for step in self.place)


class RepeatedNames(List[RepeatedName]):
    """The names that are listed, and how many there are."""

    all_names: int = 0
    """How many names are written more than once in one object."""

    @property
    def more(self) -> bool:
        """Whether there are more of them than are listed."""
        return len(self) < self.all_names


class _Object:
    """An object that has a repeated name, or an object inside it that has one."""

    __slots__ = ('parent', 'steps')

    def __init__(self) -> None:
        self.parent: Optional[_Object] = None
        self.steps: Tuple[Step, ...] = ()

    def place(self) -> Tuple[Step, ...]:
        """Returns the steps from the root to this object."""
        groups = []
        node: Optional[_Object] = self
        while node is not None:
            groups.append(node.steps)
            node = node.parent
        return tuple(step for steps in reversed(groups) for step in steps)


class _Reader:
    """Meets each object when it ends, and keeps what leads to a repeated name."""

    def __init__(self) -> None:
        self.found: List[Tuple[_Object, str, int]] = []

    def object(self, members: List[Tuple[str, object]]) -> Optional[_Object]:
        """Stands for an object with these members: None if nothing in it is repeated."""
        this = _Object()
        leads_on = [_leads_on(value, this, (name,)) for name, value in members]
        times = _times([name for name, _ in members])
        self.found.extend((this, name, count) for name, count in times.items() if count > 1)
        return this if any(leads_on) or len(times) < len(members) else None


def _times(names: List[str]) -> dict:
    times: dict = {}
    for name in names:
        times[name] = times.get(name, 0) + 1
    return times


def _leads_on(value: object, parent: Optional[_Object], steps: Tuple[Step, ...]) -> bool:
    """Returns whether the value leads to a repeated name, after telling each object in it how it is reached."""
    if isinstance(value, _Object):
        value.parent, value.steps = parent, steps
        return True
    if isinstance(value, list):
        found = [_leads_on(entry, parent, (*steps, position)) for position, entry in enumerate(value)
                 if isinstance(entry, (_Object, list))]
        return any(found)
    return False


def _no_number(word: str) -> NoReturn:
    raise ValueError(f'{word} is not JSON')


def repeated_names(report: Union[bytes, bytearray, memoryview, str], *, most: Optional[int] = MOST_NAMES) -> RepeatedNames:
    """Returns the names that are written more than once in one object, in the order in which their objects end: the first `most` of
    them, and fewer if their places together have more than a megabyte; or all if that is None.

    Raises ValueError if the report is not JSON, or is a text that has no form in UTF-8. It says nothing about the meaning of the
    report: `erd` reads the last value of such a name.

    >>> [(name.pointer, name.times) for name in repeated_names('{"a": [{"b": 1, "b": 2}], "c": 3}')]
    [('/a/0/b', 2)]
    """
    text = (report.encode('utf-8') if isinstance(report, str) else bytes(report)).decode('utf-8')
    reader = _Reader()
    try:
        root = json.loads(text, object_pairs_hook=reader.object, parse_constant=_no_number,
                          parse_int=_nothing, parse_float=_nothing)
    except RecursionError:
        raise ValueError('nested too deeply') from None
    _leads_on(root, None, ())
    names = RepeatedNames()
    names.all_names, length = len(reader.found), 0
    for node, name, times in reader.found[:most]:
        if most is not None and length >= ENOUGH_TEXT:
            break
        names.append(RepeatedName((*node.place(), name), times))
        length += sum(len(str(step)) + 1 for step in names[-1].place)
    return names


def _nothing(_: str) -> None:
    return None


def visible(text: str) -> str:
    """Returns the text with each character that a terminal may act on as an escape."""
    return ''.join(letter if letter.isprintable() else f'\\u{{{ord(letter):x}}}' for letter in text)


def lines(name: str) -> Iterator[str]:
    """Yields a line for each repeated name of a file that is listed, and one that says how many are left."""
    with open(name, 'rb') as file:
        report = file.read()
    names = repeated_names(report)
    for found in names:
        yield visible(f'{name}: {found.pointer}: written {found.times} times; erd reads the last value')
    if names.more:
        yield visible(f'{name}: and {names.all_names - len(names)} more')


def write_line(handle: int, line: str) -> None:
    """Writes a line whole: a descriptor may take a part of it at a time."""
    left = f'{line}\n'.encode('utf-8', 'backslashreplace')
    while left:
        left = left[os.write(handle, left):]


def tell(words: str) -> None:
    """Writes a line to standard error, as far as it can be written."""
    try:
        write_line(STANDARD_ERROR, visible(words))
    except OSError:
        pass


def status_of(name: str) -> int:
    """Prints the repeated names of a file, and returns the exit status that it has."""
    status = 0
    try:
        for line in lines(name):
            status = 1
            write_line(STANDARD_OUTPUT, line)
        return status
    except ValueError:
        why, status = 'not JSON', 2
    except MemoryError:
        why, status = 'no memory', 3
    except OSError as error:
        why, status = 'write failed' if status == 1 else str(error.strerror), 3
    tell(f'{name}: {why}')
    return status


def main(names: List[str]) -> int:
    """Prints the repeated names of the files, and returns the exit status."""
    try:
        if not names or names[0] in ('-h', '--help'):
            write_line(STANDARD_OUTPUT if names else STANDARD_ERROR, (__doc__ or '').strip())
            return 0 if names else 3
        return max([status_of(name) for name in names])
    except OSError:
        tell('write failed')
        return 3


if __name__ == '__main__':
    sys.exit(main(sys.argv[1:]))
