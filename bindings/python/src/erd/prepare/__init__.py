"""Prepares a vendor's export for `erd`: steps that a person chooses, each of which says what it did.

>>> from erd import prepare
>>> data, done = prepare.prepare(b'{"@type":"ElectionResults.ElectionReport","Notes":null}', ['nulls'])
>>> data, [(step.name, step.count) for step in done]
(b'{"@type":"ElectionResults.ElectionReport"}', [('nulls', 1)])

A report that was given stays as it is. The library does the steps, by the call `erd_prepare`: that nothing changes but what is told is
proved of it. A prepared report may still be refused.
"""

from __future__ import annotations

from typing import Iterable, List, NamedTuple, Optional, Tuple

from .. import compare
from ..results import Comparison
from ..tree import NotJson
from .prepared import STEPS, Change, ChangedNumber, Done, Left, Preparation, Remedy, Step, names_of, remedy_of, steps_of
from .step_words import LEFT_WORDS

__all__ = ['LEFT_WORDS', 'STEPS', 'Change', 'ChangedNumber', 'ComparedCopies', 'Done', 'Left', 'NotJson', 'Preparation', 'Remedy', 'Step',
           'compare_prepared', 'names_of', 'prepare', 'remedy_of', 'steps_of']


def prepare(data: bytes, names: Iterable[str] = tuple(steps_of('removed'))) -> Tuple[bytes, List[Done]]:
    """Returns the bytes of a copy of the report on which these steps were done, and what each step did. Raises NotJson if the
    bytes are not JSON, ValueError for a name that no step has, and TooLong for a report of more than 67,108,864 bytes."""
    return Preparation(data).prepare(names)


class ComparedCopies(NamedTuple):
    """Two copies on which the same steps were done, and how they compare."""

    comparison: Comparison
    left: bytes
    left_done: List[Done]
    """What each step did in the left one."""

    right: bytes
    right_done: List[Done]


def compare_prepared(left: bytes, right: bytes, names: Iterable[str] = tuple(steps_of('removed')), *,
                     prefer: Optional[str] = None) -> ComparedCopies:
    """Does the same steps on copies of two reports, and compares the copies. The comparison is that of `erd.compare`: if a copy is refused, it
    has its faults. Raises NotJson if the bytes of one are not JSON, ValueError for a name that no step has, and TooLong for a report of
    more than 67,108,864 bytes.

    >>> compare_prepared(b'{"@type":"ElectionResults.ElectionReport"}', b'{}').comparison.lines[0]
    'left: : missing member Election'
    """
    chosen = tuple(names)
    left_copy, left_done = prepare(left, chosen)
    right_copy, right_done = prepare(right, chosen)
    return ComparedCopies(compare(left_copy, right_copy, prefer=prefer), left_copy, left_done, right_copy, right_done)
