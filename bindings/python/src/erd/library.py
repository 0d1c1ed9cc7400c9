"""The shared library, by ctypes."""

from __future__ import annotations

import ctypes
import functools
import json
import os
import sys
from dataclasses import dataclass, field
from functools import lru_cache
from pathlib import Path
from typing import Any, Callable, Dict, Generic, Iterator, Optional, Sequence, Tuple, TypeVar

GOOD, BAD, NOT_JSON, WRONG, NO_MEMORY = range(5)

# What the words of a command line are: `enum erd_line`.
LINE_REQUEST, LINE_WRONG = 1, 3

NAME = {'win32': 'erd.dll', 'darwin': 'liberd.dylib'}.get(sys.platform, 'liberd.so.0')


# More entries than any list has.
ALL = 2 ** (8 * ctypes.sizeof(ctypes.c_size_t)) - 1

# No further entry of a list begins once those before it have so many bytes: a list of faults can be as long as the square of its
# report, so a call asks for one piece after another.
BYTES_OF_PIECE = 2 ** 20

# The calls for a piece of a list, in the order of `enum erd_listing`.
LISTINGS = {name: number for number, name in enumerate((
    'erd_check_piece', 'erd_canonical_piece', 'erd_compare_piece', 'erd_differences', 'erd_check_data_piece', 'erd_canonical_data_piece',
    'erd_compare_data_piece', 'erd_differences_data', 'erd_differences_values', 'erd_words'))}

# An open list keeps so many bytes of what was judged: some for each byte of the reports, as a judging itself takes, and never more than
# the last number. Reports are judged once for so much of a list.
LEAST_KEPT, KEPT_FOR_A_BYTE, MOST_KEPT = 2 ** 24, 16, 2 ** 30


class Piece(ctypes.Structure):
    """Which entries of a list an answer is to have, and what it tells of the list: `struct erd_piece`."""

    _fields_ = [(name, ctypes.c_size_t) for name in ('first', 'most', 'enough_bytes', 'told', 'all')]


class TooLong(ValueError):
    """A report has more than 67,108,864 bytes."""

    def __init__(self) -> None:
        super().__init__('a report has more than 67,108,864 bytes')


def path_of_library() -> str:
    """Returns the path that ERD_LIBRARY gives, or else that of the library in this package, or else its plain name, by
    which the system looks for it."""
    given = os.environ.get('ERD_LIBRARY')
    if given:
        return given
    own = Path(__file__).with_name(NAME)
    return str(own) if own.exists() else NAME


def load(path: str) -> ctypes.CDLL:
    """Loads the library and declares its calls."""
    loaded = ctypes.CDLL(path)
    text = [ctypes.POINTER(ctypes.c_void_p), ctypes.POINTER(ctypes.c_size_t)]
    report = [ctypes.c_char_p, ctypes.c_size_t]
    for call, reports in (('erd_check_piece', 1), ('erd_canonical_piece', 1), ('erd_compare_piece', 2), ('erd_differences', 2),
                          ('erd_check_data_piece', 1), ('erd_canonical_data_piece', 1), ('erd_compare_data_piece', 2),
                          ('erd_differences_data', 2), ('erd_differences_values', 2), ('erd_words', 1)):
        function = getattr(loaded, call)
        function.argtypes = report * reports + [ctypes.c_char_p, ctypes.POINTER(Piece)] + text
        function.restype = ctypes.c_int
    for call, reports, more in (('erd_ballots', 1, []), ('erd_ballot', 1, [ctypes.c_size_t]), ('erd_ballot_differences', 2, []),
                                ('erd_ballots_beside', 2, [ctypes.c_size_t] * 2)):
        function = getattr(loaded, call)
        function.argtypes = report * reports + [ctypes.c_char_p, *more] + text
        function.restype = ctypes.c_int
    loaded.erd_open.argtypes = [ctypes.c_int] + report * 2 + [ctypes.c_char_p, ctypes.c_size_t]
    loaded.erd_open.restype = ctypes.c_void_p
    loaded.erd_next.argtypes = [ctypes.c_void_p, ctypes.POINTER(Piece)] + text
    loaded.erd_next.restype = ctypes.c_int
    loaded.erd_close.argtypes = [ctypes.c_void_p]
    loaded.erd_close.restype = None
    loaded.erd_prepare.argtypes = report + [ctypes.c_char_p, ctypes.c_int] + text
    loaded.erd_prepare.restype = ctypes.c_int
    loaded.erd_command_line.argtypes = report + text
    loaded.erd_command_line.restype = ctypes.c_int
    loaded.erd_free.argtypes = [ctypes.c_void_p]
    loaded.erd_free.restype = None
    loaded.erd_version.argtypes = []
    loaded.erd_version.restype = ctypes.c_char_p
    return loaded


@lru_cache(maxsize=None)
def library() -> ctypes.CDLL:
    """Returns the library, which is loaded when something calls it. What only converts XML needs none."""
    return load(path_of_library())


def version() -> str:
    """Returns the version of the library."""
    return library().erd_version().decode('ascii')


@dataclass
class Request:
    """What the words of a command line ask for, or the text that is written for them."""

    command: str = ''
    files: Sequence[str] = ()
    options: Dict[str, Any] = field(default_factory=dict)
    """Each option of the command by its name, as docs/API.md has it."""

    text: bytes = b''


def command_line(words: Sequence[str]) -> Tuple[int, Request]:
    """Returns what the words of a command line are, by the number of `enum erd_line`, and what they ask for."""
    data = b''.join(word + b'\0' for word in [b'erd', *map(os.fsencode, words)])
    text, length = ctypes.c_void_p(), ctypes.c_size_t()
    line = library().erd_command_line(data, len(data), ctypes.byref(text), ctypes.byref(length))
    if line == NO_MEMORY:
        raise MemoryError('out of memory')
    try:
        told = ctypes.string_at(text.value, length.value)
    finally:
        library().erd_free(text)
    if line != LINE_REQUEST:
        return line, Request(text=told)
    options = json.loads(told)
    command, names = options.pop('command'), options.pop('files')
    return line, Request(command, [os.fsdecode(name.encode('utf-8')) for name in names], options)


def prepared(report: bytes, steps: bytes, others: bool) -> Tuple[int, bytes]:
    """Returns the outcome of preparing a report by these steps, with commas between their names, and the text: what was done as a line
    of JSON, and the prepared report."""
    text, length = ctypes.c_void_p(), ctypes.c_size_t()
    outcome = library().erd_prepare(report, len(report), steps, others, ctypes.byref(text), ctypes.byref(length))
    if outcome == NO_MEMORY:
        raise MemoryError('out of memory')
    try:
        return outcome, ctypes.string_at(text.value, length.value) if outcome == GOOD else b''
    finally:
        library().erd_free(text)


def ballots_told(name: str, reports: Tuple[bytes, ...], prefer: Optional[bytes], *more: int) -> Tuple[int, bytes]:
    """Returns the outcome of a call for ballots of reports that are accepted, and its text."""
    text, length = ctypes.c_void_p(), ctypes.c_size_t()
    outcome = getattr(library(), name)(*sized(reports), prefer, *more, ctypes.byref(text), ctypes.byref(length))
    if outcome == NO_MEMORY:
        raise MemoryError('out of memory')
    try:
        return outcome, ctypes.string_at(text.value, length.value)
    finally:
        library().erd_free(text)


Taken = TypeVar('Taken')

# What is made of the text of an answer, which stands in the memory of the library, and of its outcome.
Take = Callable[[memoryview, int], Taken]


@dataclass(frozen=True)
class Answer(Generic[Taken]):
    """What the library answers to a call."""

    outcome: int
    taken: Taken
    """What was made of the text."""

    told: int
    """How many entries of a list the text has."""

    all: int
    """How many entries the list has."""


def pieces(name: str, reports: Tuple[bytes, ...], prefer: Optional[bytes], most: int,
           take: Take[Taken]) -> Iterator[Answer[Taken]]:
    """Gives the answers with one piece of a list after another. An answer without a list is the only one. The reports are judged once,
    but for a list that is longer than what is kept of it."""
    left, right = (*reports, b'')[:2]
    kept = min(max(LEAST_KEPT, KEPT_FOR_A_BYTE * (len(left) + len(right))), MOST_KEPT)
    opened = library().erd_open(LISTINGS[name], left, len(left), right, len(right), prefer, kept)
    if not opened:
        raise MemoryError('out of memory')
    try:
        taken = 0
        while True:
            answer = answer_of(Piece(0, most, BYTES_OF_PIECE), take, functools.partial(library().erd_next, opened))
            yield answer
            taken += answer.told
            if answer.told == 0 or taken >= answer.all:
                return
    finally:
        library().erd_close(opened)


def first_piece(name: str, reports: Tuple[bytes, ...], prefer: Optional[bytes], most: int, take: Take[Taken]) -> Answer[Taken]:
    """Returns the answer with the first piece of a list, and keeps nothing of the others."""
    return answer_of(Piece(0, most, BYTES_OF_PIECE), take, functools.partial(getattr(library(), name), *sized(reports), prefer))


def whole(name: str, reports: Tuple[bytes, ...], prefer: Optional[bytes], take: Take[Taken]) -> Taken:
    """Returns what is made of a whole answer, which is in memory as a whole."""
    return answer_of(Piece(0, ALL, ALL), take, functools.partial(getattr(library(), name), *sized(reports), prefer)).taken


def sized(reports: Tuple[bytes, ...]) -> Iterator[Any]:
    """Gives each report with its length."""
    return (value for report in reports for value in (report, len(report)))


def answer_of(piece: Piece, take: Take[Taken], call: Callable[..., int]) -> Answer[Taken]:
    """Calls the library, and returns its answer. The text that is taken is gone when `take` has returned."""
    text, length = ctypes.c_void_p(), ctypes.c_size_t()
    outcome = call(ctypes.byref(piece), ctypes.byref(text), ctypes.byref(length))
    try:
        if outcome == NO_MEMORY:
            raise MemoryError('out of memory')
        if outcome == WRONG:
            raise TooLong()
        with memoryview((ctypes.c_char * length.value).from_address(text.value)).cast('B') as view:
            return Answer(outcome, take(view, outcome), piece.told, piece.all)
    finally:
        library().erd_free(text)
