"""What the calls return: faults, differences, and the results that hold them."""

from __future__ import annotations

import json
from dataclasses import dataclass, field
from typing import Dict, NamedTuple, Optional, Tuple, Union

Step = Union[str, int]

# The Type, OtherType and Value of an identifier.
Key = Tuple[str, str, str]

# The words of each reason for a fault, by its number. For reason 2 the name of the member follows.
# `tests/pages/tables.py --write` writes them from docs/PROFILE.md.
WORDS = {
    1: 'wrong kind',
    2: 'missing member',
    3: 'wrong class',
    4: 'not a whole number',
    5: 'outside the profile',
    6: 'unknown reference',
    7: 'carried identity',
    8: 'not pre-election',
    9: 'wrong number of elections',
    10: 'empty array',
    11: 'repeated',
    12: 'no external identifier',
    13: 'identifier used twice',
    14: '@id used twice',
    15: 'unresolved reference',
    16: 'reference to another family',
    17: 'selection of another contest',
    18: 'selection name used twice',
}


def compact(value: object) -> str:
    """Returns the compact JSON text of a value, as `erd` writes it."""
    return json.dumps(value, ensure_ascii=False, separators=(',', ':'))


@dataclass(frozen=True)
class Fault:
    """One fault of a report: where it is and what is wrong there.

    >>> Fault(place=('Election', 0, 'Candidate', 2, 'PartyId'), reason=15).line
    '/Election/0/Candidate/2/PartyId: unresolved reference'
    """

    place: Tuple[Step, ...]
    """The way from the root of the report: names of members, and positions in arrays, counted from 0."""

    reason: int
    """The number of the reason. `docs/PROFILE.md` lists them."""

    name: Optional[str] = None
    """The name of the member that is missing, if one is (reason 2)."""

    @property
    def pointer(self) -> str:
        """The place as a JSON Pointer (RFC 6901)."""
        return ''.join('/' + str(step).replace('~', '~0').replace('/', '~1') for step in self.place)

    @property
    def words(self) -> str:
        """What is wrong at the place, in the words of the program."""
        return WORDS[self.reason] if self.name is None else f'{WORDS[self.reason]} {self.name}'

    @property
    def line(self) -> str:
        """The line that `erd check` writes for this fault, without its line feed.

        Names stand in it as they are, so it may hold control characters of an untrusted file.
        """
        return f'{self.pointer}: {self.words}'


class SelectionName(NamedTuple):
    """What tells a selection from the others of its contest: `docs/PROFILE.md`, "Names of selections".

    A part that the name has not is None.
    """

    type: str
    """The `@type` of its class."""

    keys: Tuple[Key, ...]
    """The keys of its candidates or parties, in rising order."""

    is_write_in: bool
    """Whether it is for a write-in."""

    sequence_order: Optional[int]
    """Its `SequenceOrder`."""

    label: Optional[str]
    """The compact JSON text of its label."""

    identifier: Optional[Key]
    """The triple that is chosen from its identifiers."""


@dataclass(frozen=True)
class SelectionDifference:
    """A selection in which two contests differ, and how they differ there."""

    name: SelectionName
    """The name of the selection."""

    how: str
    """One of `only left`, `only right` and `member`."""

    member: Optional[str] = None
    """A member in which the two selections differ, if `how` is `member`."""

    values: Optional[Dict[str, object]] = field(default=None, hash=False)
    """What either contest has there, under `left` and `right`: the value of the member; or the record of the selection, with its `class`
    and its `members`. Keys stand in place of references. A contest that has nothing there is left out. It is None from the first
    selection of a contest on where the values have more than a megabyte together, or more than is kept at a time if all differences are
    asked for."""


@dataclass(frozen=True)
class Difference:
    """An object in which two reports differ, and how they differ there.

    >>> Difference(part='style', key=('local-level', '', 'S1'), how='member', member='OrderedContent').line
    'style ["local-level","","S1"]: member "OrderedContent"'
    """

    part: str
    """What the object is: report, unit, party, person, office, header, election, candidate, contest or style."""

    key: Optional[Key]
    """Type, OtherType and Value of the object's key. None for the report, and for an election without identifiers."""

    how: str
    """One of `only left`, `only right`, `other class` and `member`."""

    member: Optional[str] = None
    """A member in which the two objects differ, if `how` is `member`."""

    selections: Optional[Tuple[SelectionDifference, ...]] = None
    """What differs inside the selections of a contest, in rising order of names and then of members, if the member is
    `ContestSelection`. Only `differences` tells it. It is None too where the names of selections and of what differs, from the first
    difference of the list on, have more than a megabyte together; if all differences are asked for, this holds for as much of the
    list as is kept at a time: at least 16 megabytes."""

    values: Optional[Dict[str, object]] = field(default=None, hash=False)
    """What either report has there, under `left` and `right`, as `json.loads` reads it: the value of the member; or the record of the
    object, with its `class`, the key of its `election` and its `members`. Keys stand in place of references. A report that has nothing
    there is left out. Only `differences` tells it, and not of the content of ballots. What contests have at their selections is in
    `selections`."""

    @property
    def line(self) -> str:
        """The line that `erd compare` writes for this difference, without its line feed."""
        key = '' if self.key is None else ' ' + compact(list(self.key))
        how = self.how if self.member is None else f'{self.how} {compact(self.member)}'
        return f'{self.part}{key}: {how}'


@dataclass(frozen=True)
class Check:
    """Whether a report is accepted, and if not, why."""

    is_json: bool
    """Whether the bytes are JSON at all."""

    faults: Tuple[Fault, ...] = ()
    """The faults of the first phase that finds one, in the order of their places, from the first one on."""

    all_faults: int = 0
    """How many faults the report has."""

    @property
    def more(self) -> bool:
        """Whether the report has more faults than are listed."""
        return len(self.faults) < self.all_faults

    @property
    def accepted(self) -> bool:
        """Whether the report is accepted."""
        return self.is_json and self.all_faults == 0

    @property
    def outcome(self) -> str:
        """How it ended: `accepted`, `refused` or `not JSON`."""
        return ('accepted', 'refused', 'not JSON')[self.status]

    @property
    def status(self) -> int:
        """The exit status of `erd check`: 0 if accepted, 1 if refused, 2 if the bytes are not JSON."""
        if not self.is_json:
            return 2
        return 1 if self.all_faults else 0

    @property
    def lines(self) -> Tuple[str, ...]:
        """The lines that `erd check` writes, as far as the faults are listed."""
        if not self.is_json:
            return ('not JSON',)
        return ('accepted',) if self.accepted else tuple(fault.line for fault in self.faults)

    @property
    def text(self) -> str:
        """These lines, each with its line feed."""
        return ''.join(line + '\n' for line in self.lines)

    def __bool__(self) -> bool:
        return self.accepted


@dataclass(frozen=True)
class Canonical:
    """The canonical form of a report, or why it has none."""

    form: Optional[bytes]
    """The canonical bytes, if the report is accepted."""

    check: Check
    """The result of checking the report."""

    @property
    def accepted(self) -> bool:
        """Whether the report is accepted, and so has a canonical form."""
        return self.form is not None

    @property
    def outcome(self) -> str:
        """How it ended: `accepted`, `refused` or `not JSON`."""
        return self.check.outcome

    @property
    def status(self) -> int:
        """The exit status of `erd canon`: 0 if accepted, 1 if refused, 2 if the bytes are not JSON."""
        return self.check.status

    def __bool__(self) -> bool:
        return self.accepted


class _OfPair:
    """What the answers for two reports have in common."""

    refused: Optional[str]
    check: Optional[Check]

    @property
    def same(self) -> bool:
        raise NotImplementedError

    @property
    def _listed(self) -> Tuple[Difference, ...]:
        raise NotImplementedError

    @property
    def outcome(self) -> str:
        """How it ended: `same`, `different`, `refused` or `not JSON`."""
        if self.check is not None:
            return self.check.outcome
        return 'same' if self.same else 'different'

    @property
    def status(self) -> int:
        """The exit status of `erd compare`: 0 if same, 2 if a report is not JSON, otherwise 1."""
        if self.check is not None:
            return self.check.status
        return 0 if self.same else 1

    @property
    def lines(self) -> Tuple[str, ...]:
        """`same`, or the line of each difference that is listed; of a refused report the lines of `erd compare`."""
        if self.check is not None:
            return tuple(f'{self.refused}: {line}' for line in self.check.lines)
        return ('same',) if self.same else tuple(difference.line for difference in self._listed)

    @property
    def text(self) -> str:
        """These lines, each with its line feed."""
        return ''.join(line + '\n' for line in self.lines)

    def __bool__(self) -> bool:
        return self.same


@dataclass(frozen=True)
class Comparison(_OfPair):
    """Whether two reports mean the same, and if not, where they differ first; or which of them is refused, and why."""

    difference: Optional[Difference] = None
    """The first difference, if both reports are accepted and do not mean the same."""

    refused: Optional[str] = None
    """`left` or `right`, if that report is refused. The right one is judged only if the left one is accepted."""

    check: Optional[Check] = None
    """The result of checking the report that is refused."""

    @property
    def same(self) -> bool:
        """Whether both reports are accepted and mean the same."""
        return self.difference is None and self.refused is None

    @property
    def _listed(self) -> Tuple[Difference, ...]:
        return () if self.difference is None else (self.difference,)


@dataclass(frozen=True)
class Differences(_OfPair):
    """All differences of two reports; or which of them is refused, and why."""

    differences: Tuple[Difference, ...] = ()
    """The differences in rising order by part, key and member, from the first one on."""

    all_differences: int = 0
    """How many differences the reports have."""

    refused: Optional[str] = None
    """`left` or `right`, if that report is refused. The right one is judged only if the left one is accepted."""

    check: Optional[Check] = None
    """The result of checking the report that is refused."""

    @property
    def more(self) -> bool:
        """Whether there are more differences, or more faults of a refused report, than are listed."""
        return len(self.differences) < self.all_differences or (self.check is not None and self.check.more)

    @property
    def same(self) -> bool:
        """Whether both reports are accepted and mean the same."""
        return self.refused is None and self.all_differences == 0

    @property
    def _listed(self) -> Tuple[Difference, ...]:
        return self.differences


def fault_of(data: dict) -> Fault:
    """Returns the fault that one object of the library's JSON describes."""
    return Fault(tuple(data['place']), data['reason'], data.get('name'))


def difference_of(data: dict) -> Difference:
    """Returns the difference that one object of the library's JSON describes."""
    inside = data.get('selections')
    selections = None if inside is None else tuple(map(selection_difference_of, inside))
    return Difference(data['part'], key_of(data['key']), data['how'], data.get('member'), selections, data.get('values'))


def selection_difference_of(data: dict) -> SelectionDifference:
    """Returns the difference inside selections that one object of the library's JSON describes."""
    return SelectionDifference(selection_name_of(data['name']), data['how'], data.get('member'), data.get('values'))


def selection_name_of(data: list) -> SelectionName:
    """Returns the name of a selection that an array of the library's JSON describes."""
    type_text, keys, is_write_in, order, label, identifier = data
    return SelectionName(type_text, tuple(map(tuple, keys)), is_write_in, order, label, key_of(identifier))


def key_of(data: Optional[list]) -> Optional[Key]:
    """Returns the key that an array of the library's JSON describes, or None."""
    return None if data is None else tuple(data)


def check_of(data: object, all_faults: int) -> Check:
    """Returns the result that the library's JSON for `check` describes, of a report with so many faults."""
    if data == 'not JSON':
        return Check(is_json=False)
    return Check(is_json=True, faults=tuple(map(fault_of, data)), all_faults=all_faults)


def comparison_of(data: object, all_faults: int) -> Comparison:
    """Returns the result that the library's JSON for `compare` describes. A refused report has so many faults."""
    if data is None:
        return Comparison()
    if 'refused' in data:
        return Comparison(refused=data['refused'], check=check_of(data['faults'], all_faults))
    return Comparison(difference=difference_of(data))


def differences_of(data: object, all_entries: int) -> Differences:
    """Returns the result that the library's JSON for `differences` describes: a list of so many differences, or of so many
    faults."""
    if 'refused' in data:
        return Differences(refused=data['refused'], check=check_of(data['faults'], all_entries))
    return Differences(tuple(map(difference_of, data)), all_entries)
