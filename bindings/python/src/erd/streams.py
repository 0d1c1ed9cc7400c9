"""Reads and writes as the program does: by descriptors, so that nothing waits in a buffer, is written late, or is lost.

A status of 0, 1 or 2 is said of files that were judged, after all that is said of them has been written. Whatever fails ends with
3, or with 4 if memory runs out, and with one sentence on standard error.
"""

from __future__ import annotations

import errno
import os
import re
from typing import Callable, List, Optional, Union

from .library import NO_MEMORY, WRONG, TooLong
from .repeats import visible

STANDARD_INPUT, STANDARD_OUTPUT, STANDARD_ERROR = range(3)
MOST_BYTES = 67108864
INTERRUPTED = 130


CONTROLS = re.compile('[\x00-\x1f\x7f-\x9f]')


class Stop(Exception):
    """An end with a sentence on standard error and an exit status. A second line may name a file, with a question mark for each control
    character."""

    def __init__(self, words: str, status: int = WRONG, name: Optional[str] = None) -> None:
        super().__init__(words)
        self.status = status
        self.lines = words if name is None else f'{words}\n{CONTROLS.sub("?", name)}'


class ReaderGone(Stop):
    """The reader of a pipe has gone away."""

    def __init__(self) -> None:
        super().__init__('write failed')


class Input:
    """A file that is open for reading. A folder opens too, and its reading fails."""

    def __init__(self, name: str) -> None:
        try:
            self.handle = os.open(name, os.O_RDONLY | getattr(os, 'O_BINARY', 0))
        except (OSError, ValueError):
            raise Stop('cannot open', name=name) from None

    def __enter__(self) -> Input:
        return self

    def __exit__(self, *_: object) -> None:
        os.close(self.handle)


def read(handle: int) -> bytes:
    """Returns the bytes of an open file, or stops if they are too many."""
    parts: List[bytes] = []
    left = MOST_BYTES + 1
    try:
        while left > 0:
            part = os.read(handle, min(left, 1 << 20))
            if not part:
                break
            parts.append(part)
            left -= len(part)
    except OSError:
        raise Stop('read failed') from None
    if left == 0:
        raise Stop('too long')
    return b''.join(parts)


def write(handle: int, data: Union[bytes, memoryview]) -> None:
    """Writes all of the bytes, or stops."""
    left = memoryview(data)
    try:
        while left:
            left = left[os.write(handle, left):]
    except BrokenPipeError:
        raise ReaderGone() from None
    except OSError:
        raise Stop('write failed') from None


def write_text(handle: int, text: str) -> None:
    """Writes a text in UTF-8. A byte of a file's name that is no UTF-8 is written as it is."""
    write(handle, text.encode('utf-8', 'surrogateescape'))


def tell(words: str) -> None:
    """Writes words to standard error, as far as they can be written, and a line feed."""
    try:
        write(STANDARD_ERROR, f'{words}\n'.encode('utf-8', 'backslashreplace'))
    except Stop:
        pass  # nobody can be told


def keep_places() -> None:
    """Opens the standard descriptors that are closed, so that no other file comes to stand in their place. To read from this
    standard input or to write to this output fails, as it does where they are closed."""
    for handle, way in ((STANDARD_INPUT, os.O_WRONLY), (STANDARD_OUTPUT, os.O_RDONLY), (STANDARD_ERROR, os.O_RDONLY)):
        try:
            os.fstat(handle)
        except OSError as error:
            if error.errno == errno.EBADF:
                os.open(os.devnull, way)  # the lowest number that is free is this one


def status_of(run: Callable[[], int]) -> int:
    """Runs a command, and returns its exit status. Where it ends early, says why."""
    try:
        keep_places()
        return run()
    except TooLong:
        stop = Stop('too long')
    except MemoryError:
        stop = Stop('no memory', NO_MEMORY)
    except Stop as caught:
        stop = caught
    except KeyboardInterrupt:
        return INTERRUPTED
    except Exception as error:  # whatever it is, no file was judged by it
        stop = Stop(f'erd failed: {visible(sentence_of(error))}')
    tell(stop.lines)
    return stop.status


def sentence_of(error: Exception) -> str:
    """Returns what an error says, on one line."""
    return ' '.join([f'{type(error).__name__}:', *str(error).split()])


def is_terminal(handle: int) -> bool:
    """Returns whether a descriptor is a terminal."""
    try:
        return os.isatty(handle)
    except OSError:
        return False


__all__ = ['INTERRUPTED', 'Input', 'MOST_BYTES', 'ReaderGone', 'STANDARD_ERROR', 'STANDARD_INPUT', 'STANDARD_OUTPUT', 'Stop',
           'is_terminal', 'keep_places', 'read', 'status_of', 'tell', 'write', 'write_text']
