"""The ballots of a report, and which of them are not the same in two reports."""

from __future__ import annotations

from dataclasses import dataclass
from typing import List, Optional, Tuple

from .results import Check, Key, SelectionName, compact, key_of, selection_name_of


WORDS_OF = {'only left': 'only in the left report', 'only right': 'only in the right report', 'differs': 'differs'}


def line_of(key: Optional[Key], words: str) -> str:
    """Returns the line of the program for the ballot of a style with this key."""
    return 'ballot' + ('' if key is None else ' ' + compact(list(key))) + f': {words}'


@dataclass(frozen=True)
class BallotHead:
    """A ballot of a report, as the list of all ballots has it."""

    position: int
    """The position of its BallotStyle among those of the report, counted from 0: what `ballot` takes."""

    key: Optional[Key]
    """Type, OtherType and Value of the key of its style."""

    all_lines: int
    """How many lines it has: headers and contests."""

    parties: Tuple[Key, ...]
    """The keys of the parties whose voters get it."""

    units: Tuple[Key, ...]
    """The keys of the units whose voters get it."""

    @property
    def line(self) -> str:
        """The line that `erd ballots` writes for it, without its line feed."""
        return line_of(self.key, f'{self.all_lines} lines')


@dataclass(frozen=True)
class Ballots:
    """The ballots of a report, in the rising order of the keys of their styles, or why there are none."""

    check: Check
    """The result of checking the report."""

    ballots: Tuple[BallotHead, ...] = ()

    @property
    def lines(self) -> Tuple[str, ...]:
        """The lines that `erd ballots` writes, as far as the faults of a refused report are listed."""
        return tuple(head.line for head in self.ballots) if self.check.accepted else self.check.lines

    def __bool__(self) -> bool:
        return self.check.accepted


@dataclass(frozen=True)
class BallotLine:
    """A line of a ballot: a header or a contest."""

    what: str
    """`header` or `contest`."""

    key: Optional[Key]
    """The key of the header or the contest."""

    depth: int
    """How many headers stand around it."""

    is_listed: bool
    """Whether the ballot lists selections for it. If it lists none, `selections` has those of the contest in rising order."""

    selections: Tuple[SelectionName, ...]


@dataclass(frozen=True)
class Ballot:
    """A ballot of a report, with its lines in their order."""

    key: Optional[Key]
    lines: Tuple[BallotLine, ...]
    parties: Tuple[Key, ...]
    units: Tuple[Key, ...]

    election: Optional[Key]
    """The key of the Election that holds its BallotStyle, if that has one."""


@dataclass(frozen=True)
class OneBallot:
    """A ballot of a report, or why there is none."""

    check: Check
    """The result of checking the report."""

    ballot: Optional[Ballot] = None
    """The ballot, if the report is accepted and has a style at the position."""


@dataclass(frozen=True)
class BallotDifference:
    """A style whose ballots are not the same in two reports, or that only one of them has."""

    key: Optional[Key]
    """The key of the style."""

    left: Optional[int]
    """Its position in the left report, if that has it."""

    right: Optional[int]
    """Its position in the right report, if that has it."""

    below: Tuple[str, ...] = ()
    """What differs on its ballots, if both reports have it: the lines that `erd ballots` writes below its own, without their line feeds."""

    @property
    def how(self) -> str:
        """One of `only left`, `only right` and `differs`."""
        if self.right is None:
            return 'only left'
        return 'only right' if self.left is None else 'differs'

    @property
    def line(self) -> str:
        """The line that `erd ballots` writes for it, without its line feed."""
        return line_of(self.key, WORDS_OF[self.how])


@dataclass(frozen=True)
class BallotDifferences:
    """Which ballots are not the same in two reports; or which report is refused, and why."""

    differences: Tuple[BallotDifference, ...] = ()
    """In the rising order of the keys of the styles."""

    refused: Optional[str] = None
    """`left` or `right`, if that report is refused. The right one is judged only if the left one is accepted."""

    check: Optional[Check] = None
    """The result of checking the report that is refused."""

    @property
    def same(self) -> bool:
        """Whether both reports are accepted and have the same ballots: the same lines, voters, and words of contests, headers, selections,
        candidates, persons, parties and units. `erd.differences` tells what differs."""
        return self.refused is None and not self.differences

    @property
    def lines(self) -> Tuple[str, ...]:
        """The lines that `erd ballots` writes, as far as the faults of a refused report are listed."""
        if self.check is not None:
            return tuple(f'{self.refused}: {line}' for line in self.check.lines)
        return ('same ballots',) if self.same else tuple(line for it in self.differences for line in (it.line, *it.below))

    def __bool__(self) -> bool:
        return self.same


@dataclass(frozen=True)
class SelectionRow:
    """A selection of a contest on two ballots."""

    how: str
    """One of `both`, `removed`, `added`, `moved away` and `moved here`."""

    name: SelectionName


@dataclass(frozen=True)
class BallotRow:
    """A line of two ballots. One that moved has a row where each ballot has it."""

    how: str
    """One of `both`, `removed`, `added`, `moved away` and `moved here`."""

    left: Optional[int]
    """Its position in the left ballot, if that has it."""

    right: Optional[int]
    """Its position in the right ballot, if that has it."""

    selections: Tuple[SelectionRow, ...]
    """The selections of a contest of both, by their names. Ballots that list none tell no moves."""


@dataclass(frozen=True)
class BallotsBeside:
    """Two ballots beside each other, or why they are not there."""

    left: Tuple[BallotLine, ...] = ()
    """The lines of the left ballot."""

    right: Tuple[BallotLine, ...] = ()
    """The lines of the right ballot."""

    rows: Tuple[BallotRow, ...] = ()
    """Each line of either ballot once, in its order."""

    is_there: bool = False
    """Whether both reports are accepted and have a style at their positions."""

    refused: Optional[str] = None
    """`left` or `right`, if that report is refused. The right one is judged only if the left one is accepted."""

    check: Optional[Check] = None
    """The result of checking the report that is refused."""


def keys_of(data: List[list]) -> Tuple[Key, ...]:
    """Returns the keys that arrays of the library's JSON describe."""
    return tuple((type_text, other_type, value) for type_text, other_type, value in data)


def head_of(data: dict) -> BallotHead:
    """Returns the ballot that one object of the library's list describes."""
    return BallotHead(data['at'], key_of(data['key']), data['lines'], keys_of(data['parties']), keys_of(data['units']))


def ballot_line_of(data: dict) -> BallotLine:
    """Returns the line of a ballot that one object of the library's JSON describes."""
    what, key = data['what']
    return BallotLine(what, key_of(key), data['depth'], data['listed'], tuple(map(selection_name_of, data['selections'])))


def ballot_of(data: Optional[dict]) -> Optional[Ballot]:
    """Returns the ballot that the library's JSON describes, if there is one."""
    if data is None:
        return None
    lines = tuple(map(ballot_line_of, data['lines']))
    return Ballot(key_of(data['key']), lines, keys_of(data['parties']), keys_of(data['units']), key_of(data['election']))


def ballot_difference_of(data: dict) -> BallotDifference:
    """Returns the difference that one object of the library's JSON describes."""
    return BallotDifference(key_of(data['key']), data['left'], data['right'], tuple(data['below'].split('\n')[:-1]))


def ballot_row_of(data: dict) -> BallotRow:
    """Returns the row of two ballots that one object of the library's JSON describes."""
    selections = tuple(SelectionRow(inner['how'], selection_name_of(inner['name'])) for inner in data['selections'])
    return BallotRow(data['how'], data['left'], data['right'], selections)


def beside_of(data: Optional[dict]) -> BallotsBeside:
    """Returns the two ballots that the library's JSON describes, if they are there."""
    if data is None:
        return BallotsBeside()
    left, right = (tuple(map(ballot_line_of, data[side])) for side in ('left', 'right'))
    return BallotsBeside(left, right, tuple(map(ballot_row_of, data['rows'])), True)
