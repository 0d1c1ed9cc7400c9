"""Judges one file: the row that a run over many files has for it."""

from __future__ import annotations

import hashlib
import os
import stat
from dataclasses import dataclass, field
from typing import List, Optional, Sequence

from . import TooLong, canonical
from .prepare import NotJson, prepare
from .streams import Input, Stop, read

ACCEPTED, REFUSED, NOT_JSON = 'accepted', 'refused', 'not JSON'
STATUS_OF = {ACCEPTED: 0, REFUSED: 1, NOT_JSON: 2, 'no memory': 4}


@dataclass
class Row:
    """What is known of one file."""

    file: str
    verdict: str
    faults: int = 0
    sha256: Optional[str] = None
    group: Optional[int] = None
    prepared: Optional[str] = None
    """Which steps changed something before the file was judged, if any were asked for."""

    reasons: List[int] = field(default_factory=list)
    """The numbers of the reasons of its first thousand faults, rising."""

    @property
    def status(self) -> int:
        """The exit status that `erd check` has for such a file."""
        return STATUS_OF.get(self.verdict, 3)


def bytes_of_file(path: str) -> bytes:
    """Returns the bytes of a regular file. Any other could wait for ever, or have no end, so it is not opened."""
    try:
        mode = os.stat(path).st_mode
    except (OSError, ValueError):
        raise Stop('cannot open') from None
    if not stat.S_ISREG(mode):
        raise Stop('a folder that cannot be listed' if stat.S_ISDIR(mode) else 'not a regular file')
    with Input(path) as opened:
        return read(opened.handle)


def judge(file: str, prefer: Optional[str], steps: Sequence[str] = (), folder: str = '') -> Row:
    """Reads one file and judges it, or a copy on which these steps were done. Whatever goes wrong is the verdict. A name that
    begins nowhere is one below the folder."""
    told = None
    try:
        data = bytes_of_file(os.path.join(folder, file))
        if steps:
            data, done = prepare(data, steps)
            told = ', '.join(f'{step.name} {step.count}' for step in done if step.count)
        result = canonical(data, prefer=prefer)
    except NotJson:
        return Row(file, NOT_JSON)
    except TooLong:
        return Row(file, 'too long')
    except MemoryError:
        return Row(file, 'no memory')
    except Stop as stop:
        return Row(file, str(stop))
    except Exception as error:  # a row of its own, so that one file cannot end the run
        return Row(file, f'{type(error).__name__}: {error}')
    if result.form is not None:
        return Row(file, ACCEPTED, sha256=hashlib.sha256(result.form).hexdigest(), prepared=told)
    reasons = sorted({fault.reason for fault in result.check.faults})
    return Row(file, REFUSED if result.check.is_json else NOT_JSON, result.check.all_faults, prepared=told, reasons=reasons)
