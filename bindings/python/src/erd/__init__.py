"""Check, canonical form and comparison of pre-election ballot definitions.

A ballot definition is an ElectionReport of NIST SP 1500-100 version 2 in its JSON form. Two files can define the same
ballots and still differ in every line. `erd` puts them into one canonical form: two files have equal canonical forms if and
only if they mean the same.

>>> import erd
>>> with open('county.vendor-a.json', 'rb') as a, open('county.vendor-b.json', 'rb') as b:   # doctest: +SKIP
...     erd.compare(a.read(), b.read()).same
True

The code behind these calls is the proved code of `erd`. The compiler that made the shared library of it is not proved; each
library is tested with the conformance suite.

Each call takes the bytes of a report, or its text, and gives the same result for the same arguments each time. Several
threads may call at once. `prefer` is the type of identifier that the keys of objects follow, such as `fips`.

A list of faults has at most `most_faults` of them, and fewer if their texts together have more than a megabyte, since the list
of all can grow with the square of the report's size; `all_faults` is how many there are. None asks for all of them. The same holds
for `most_differences`.

Each call raises TooLong for a report of more than 67,108,864 bytes, MemoryError if memory runs out, and TypeError for what is
neither bytes nor text. A text that has half a surrogate pair in it has no form in UTF-8, and raises ValueError as a report and as
`prefer`. So does a `prefer` with a zero character in it.
"""

from __future__ import annotations

import json
import os
import warnings
from typing import Optional, Tuple, TypeVar, Union

from .ballot_words import ObjectWords, SelectionWords, WordList, words_of
from .ballots import (Ballot, BallotDifference, BallotDifferences, BallotHead, BallotLine, BallotRow, Ballots, BallotsBeside, OneBallot,
                      SelectionRow, ballot_difference_of, ballot_of, beside_of, head_of)
from .library import ALL, GOOD, TooLong, ballots_told, version
from .listing import MOST_LISTED, answered, bytes_of_type, listed, utf_8
from .repeats import RepeatedName, RepeatedNames, repeated_names
from .results import (Canonical, Check, Comparison, Difference, Differences, Fault, SelectionDifference, SelectionName, check_of,
                      comparison_of, differences_of)

__all__ = ['Ballot', 'BallotDifference', 'BallotDifferences', 'BallotHead', 'BallotLine', 'BallotRow', 'Ballots', 'BallotsBeside', 'Canonical',
           'Check', 'Comparison', 'Difference', 'Differences', 'Fault', 'MOST_LISTED', 'ObjectWords', 'OneBallot', 'RepeatedName', 'RepeatedNames',
           'SelectionDifference', 'SelectionName', 'SelectionRow', 'SelectionWords', 'TooLong', 'WordList', 'ballot', 'ballot_differences', 'ballots',
           'ballots_beside', 'canonical', 'check', 'compare', 'differences', 'repeated_names', 'version', 'words']

Report = Union[bytes, bytearray, memoryview, str]
OfPair = TypeVar('OfPair', Comparison, Differences)

# No name of a file is longer.
LONGEST_NAME = 4096


def check(report: Report, *, prefer: Optional[str] = None, most_faults: Optional[int] = MOST_LISTED) -> Check:
    """Returns whether the report is accepted, with the faults of the first phase that finds one.

    >>> check('{').lines
    ('not JSON',)
    """
    data, count = listed('erd_check_data_piece', (bytes_of(report),), prefer, most_faults)
    return hinted(report, check_of(data, count))


def canonical(report: Report, *, prefer: Optional[str] = None, most_faults: Optional[int] = MOST_LISTED) -> Canonical:
    """Returns the canonical form of the report, or its faults if it is refused.

    >>> canonical('{').form is None
    True
    """
    data, count = listed('erd_canonical_data_piece', (bytes_of(report),), prefer, most_faults)
    if isinstance(data, bytes):
        return Canonical(form=data, check=Check(is_json=True))
    return Canonical(form=None, check=hinted(report, check_of(data, count)))


def compare(left: Report, right: Report, *, prefer: Optional[str] = None, most_faults: Optional[int] = MOST_LISTED) -> Comparison:
    """Returns whether the two reports mean the same, with their first difference if they don't, or the faults of the first report
    that is refused.

    >>> compare('{', '{').lines
    ('left: not JSON',)
    """
    data, count = listed('erd_compare_data_piece', (bytes_of(left), bytes_of(right)), prefer, most_faults)
    return hinted_pair(left, right, comparison_of(data, count))


def differences(left: Report, right: Report, *, prefer: Optional[str] = None,
                most_differences: Optional[int] = MOST_LISTED) -> Differences:
    """Returns the differences of the two reports in rising order, or the faults of the first report that is refused: at most
    `most_differences` of either. A difference in the selections of a contest tells what differs inside them.

    >>> differences('{', '{').lines
    ('left: not JSON',)
    """
    data, count = listed('erd_differences_values', (bytes_of(left), bytes_of(right)), prefer, most_differences)
    return hinted_pair(left, right, differences_of(data, count))


def ballots(report: Report, *, prefer: Optional[str] = None, most_faults: Optional[int] = MOST_LISTED) -> Ballots:
    """Returns the ballots of the report, in the rising order of the keys of their styles, or its faults if it is refused.

    >>> ballots('{').lines
    ('not JSON',)
    """
    found = judged(report, prefer, most_faults)
    if not found.accepted:
        return Ballots(found)
    told = json.loads(ballots_told('erd_ballots', (bytes_of(report),), bytes_of_type(prefer))[1])
    return Ballots(found, tuple(map(head_of, told)))


def ballot(report: Report, position: int, *, prefer: Optional[str] = None, most_faults: Optional[int] = MOST_LISTED) -> OneBallot:
    """Returns the ballot of the style at a position of the report, as `ballots` tells it, or the faults of the report if it is
    refused.

    >>> ballot('{', 0).ballot is None
    True
    """
    check_position(position)
    found = judged(report, prefer, most_faults)
    if not found.accepted:
        return OneBallot(found)
    return OneBallot(found, ballot_of(json.loads(ballots_told('erd_ballot', (bytes_of(report),), bytes_of_type(prefer), position)[1])))


def words(report: Report, *, prefer: Optional[str] = None, most_entries: Optional[int] = MOST_LISTED) -> WordList:
    """Returns what ballots print of the objects of the report, each object once, or its faults if it is refused: at most
    `most_entries` of either. `ballot` tells a ballot by the keys and names of these entries.

    >>> words('{').check.lines
    ('not JSON',)
    """
    answer = answered('erd_words', (bytes_of(report),), prefer, most_entries)
    if answer.outcome != GOOD:
        return WordList(hinted(report, check_of(answer.taken, answer.all)))
    return words_of(answer.taken, answer.all)


def ballot_differences(left: Report, right: Report, *, prefer: Optional[str] = None,
                       most_faults: Optional[int] = MOST_LISTED) -> BallotDifferences:
    """Returns which ballots are not the same in the two reports and what differs on each, or the faults of the first report that is
    refused. What no ballot prints is not compared: `differences` tells of it.

    >>> ballot_differences('{', '{').lines
    ('left: not JSON',)
    """
    side, found = refused_of(left, right, prefer, most_faults)
    if side is not None:
        return BallotDifferences(refused=side, check=found)
    _, told = ballots_told('erd_ballot_differences', (bytes_of(left), bytes_of(right)), bytes_of_type(prefer))
    return BallotDifferences(tuple(map(ballot_difference_of, json.loads(told))))


def ballots_beside(left: Report, right: Report, left_position: int, right_position: int, *, prefer: Optional[str] = None,
                   most_faults: Optional[int] = MOST_LISTED) -> BallotsBeside:
    """Returns the ballots of the styles at a position of each report beside each other, or the faults of the first report that is
    refused. `ballot_differences` tells the positions.

    >>> ballots_beside('{', '{', 0, 0).refused
    'left'
    """
    check_position(left_position)
    check_position(right_position)
    side, found = refused_of(left, right, prefer, most_faults)
    if side is not None:
        return BallotsBeside(refused=side, check=found)
    _, told = ballots_told('erd_ballots_beside', (bytes_of(left), bytes_of(right)), bytes_of_type(prefer), left_position, right_position)
    return beside_of(json.loads(told))


def check_position(position: int) -> None:
    """Refuses what is no position of a style."""
    if not isinstance(position, int):
        raise TypeError(f'a position is a whole number, and not {type(position).__name__}')
    if not 0 <= position <= ALL:
        raise ValueError('a position is below 0 or too large')


def refused_of(left: Report, right: Report, prefer: Optional[str], most_faults: Optional[int]) -> Tuple[Optional[str], Optional[Check]]:
    """Returns the side of the first of two reports that is refused, and how it is judged."""
    for side, report in (('left', left), ('right', right)):
        found = judged(report, prefer, most_faults, calls=2)
        if not found.accepted:
            return side, found
    return None, None


def judged(report: Report, prefer: Optional[str], most_faults: Optional[int], calls: int = 1) -> Check:
    """Checks a report for another call. So its faults are never in memory as a whole, as they would be in the answer of that call."""
    data, count = listed('erd_check_data_piece', (bytes_of(report),), prefer, most_faults)
    return hinted(report, check_of(data, count), calls)


def hinted(report: Report, found: Check, calls: int = 0) -> Check:
    """Returns what was found. Where a text is no JSON and names a file, the caller is warned: a call takes what is in a file. So many
    calls stand between the caller's and that which found it."""
    if not found.is_json and isinstance(report, str) and len(report) <= LONGEST_NAME and '\0' not in report and os.path.isfile(report):
        warnings.warn(f'{report!r} is no JSON, and names a file: a call takes the bytes of a file or its text, and no name',
                      stacklevel=3 + calls)
    return found


def hinted_pair(left: Report, right: Report, found: OfPair) -> OfPair:
    """The same for the report that is refused, if one is."""
    if found.check is not None:
        hinted(left if found.refused == 'left' else right, found.check, calls=1)
    return found


def bytes_of(report: Report) -> bytes:
    """Returns the bytes of a report. A text is taken in UTF-8."""
    if isinstance(report, str):
        return utf_8(report, 'a report')
    if isinstance(report, (bytes, bytearray, memoryview)):
        return bytes(report)
    raise TypeError(f'a report is bytes or text, and not {type(report).__name__}')


def __getattr__(name: str) -> str:
    """`erd.__version__` is the version of the library, which is loaded when something asks for it."""
    if name == '__version__':
        return version()
    raise AttributeError(name)
