"""Prepares a report: the library does the steps, and this hands on what it tells."""

from __future__ import annotations

import json
from typing import Any, Iterable, List, NamedTuple, Tuple, Union

from ..library import GOOD, NOT_JSON, TooLong, prepared
from ..results import WORDS
from ..tree import MARK, NotJson, Tree, WrittenNumber, without_mark, written
from .step_words import REMEDIES, STEP_WORDS

MARK_STEP = 'byte-order-mark'
"""The step that concerns the bytes and not the tree. The library takes bytes without a mark."""

NUMBERS = 'numbers'
"""What is told of numbers that change because the report is read and written again. No step does it, and none can be chosen."""


class Step(NamedTuple):
    """A step: its name, its group (`removed`, `filled-in`, `visible` or `view`) and its words."""

    name: str
    group: str
    title: str
    does: str
    loses: str


STEPS = [Step(name, *words) for name, words in STEP_WORDS.items()]
"""Every step, in the order in which they are done."""

GROUPS = frozenset(step.group for step in STEPS)

ABSENT = object()
"""The value of a member or an entry that is not there."""

Place = Tuple[Union[str, int], ...]


class Change(NamedTuple):
    """A value before and after, with its place in the report that was given."""

    place: Place
    before: object
    after: object


class ChangedNumber(NamedTuple):
    """A number that is written in another way, by its line in the file and its column there, which counts bytes, but for those of a byte
    order mark. Both begin with 1."""

    line: int
    column: int
    before: str
    after: str


class Left(NamedTuple):
    """A place that was left as it is, and why: a key of the words of what is left."""

    place: Place
    why: str


class Done(NamedTuple):
    """What a step did, or would do at its turn if it is not done. The lists have the first thousand changes, and places that are left,
    and fewer if they have more than a megabyte together."""

    name: str
    done: bool
    made: List[Union[Change, ChangedNumber]]
    left: List[Left]
    count: int
    """How many changes there are."""

    left_count: int
    """How many places are left."""

    more: bool
    """Whether some of them are not told."""

    def told(self) -> dict:
        """Returns it as plain data: each place as a JSON Pointer, with the compact text of the value before and after."""
        return {
            'step': self.name, 'done': self.done, 'count': self.count, 'changes': [_told_of(change) for change in self.made],
            'left_count': self.left_count, 'left': [{'pointer': pointer_of(place), 'why': why} for place, why in self.left],
            'more': self.more,
        }


def _told_of(change: Union[Change, ChangedNumber]) -> dict:
    if isinstance(change, ChangedNumber):
        return change._asdict()
    return {'pointer': pointer_of(change.place), 'before': _text_or_none(change.before), 'after': _text_or_none(change.after)}


def pointer_of(place: Iterable[object]) -> str:
    """Returns a place as a JSON Pointer (RFC 6901)."""
    return ''.join('/' + str(step).replace('~', '~0').replace('/', '~1') for step in place)


def _text_or_none(value: Any) -> object:
    return None if value is ABSENT else written(value)


def steps_of(*groups: str) -> List[str]:
    """Returns the names of the steps of these groups."""
    return [step.name for step in STEPS if step.group in groups]


def names_of(text: str) -> List[str]:
    """Returns the names of the steps that a text stands for: names of steps and of groups, with commas between them. Raises ValueError
    for a word that is neither."""
    names: List[str] = []
    for word in text.split(','):
        if word not in GROUPS and word not in STEP_WORDS:
            raise ValueError(f'there is no step {word}')
        names += steps_of(word) if word in GROUPS else [word]
    return names


class Remedy(NamedTuple):
    """What to do about a fault that is left: the steps that may fix it, and what to ask the vendor for."""

    steps: List[str]
    letter: str


    def line(self, reason: int) -> str:
        """Returns the line that `erd prepare` writes about a reason that is left.

        >>> remedy_of(11).line(11)
        'reason 11 (repeated): steps that may fix it: repeated; otherwise ask the vendor: Write each entry of a set once. If another one was meant, write that.'
        """
        ways = f'steps that may fix it: {", ".join(self.steps)}; otherwise ask' if self.steps else 'no step fixes it; ask'
        return f'reason {reason} ({WORDS[reason]}): {ways} the vendor: {self.letter}'


def remedy_of(reason: int) -> Remedy:
    """Returns what to do about a fault that is left, by the number of its reason."""
    return Remedy(*REMEDIES[reason])


def _number_of(number: Any) -> int:
    return int(number.text)


def _place_of(steps: list) -> Place:
    return tuple(step if isinstance(step, str) else _number_of(step) for step in steps)


def _change_of(change: dict) -> Union[Change, ChangedNumber]:
    if 'place' not in change:
        return ChangedNumber(_number_of(change['line']), _number_of(change['column']), change['before'], change['after'])
    return Change(_place_of(change['place']), change.get('before', ABSENT), change.get('after', ABSENT))


def _done_of(entry: dict) -> Done:
    """Returns what the library tells of a step."""
    left = [Left(_place_of(it['place']), it['why']) for it in entry['left']]
    return Done(entry['step'], entry['done'], [_change_of(it) for it in entry['changes']], left, _number_of(entry['count']),
                _number_of(entry['left_count']), entry['more'])


def _tree_of(told: bytes) -> Tree:
    """Returns the value of what the library tells, in which numbers are as they are written."""
    return json.loads(told, parse_int=WrittenNumber, parse_float=WrittenNumber)


class Preparation:
    """A file that is being prepared."""

    def __init__(self, data: bytes) -> None:
        self.data = data
        self.has_mark = data.startswith(MARK)

    def prepare(self, names: Iterable[str], *, tells_others: bool = False) -> Tuple[bytes, List[Done]]:
        """Does these steps, in the fixed order, on a copy. Each step that changes or leaves something is told; with `tells_others`
        those too that are not done: what they would do at their turn. Raises NotJson if the bytes are not JSON, ValueError for a
        name that no step has, and TooLong for a report of more than 67,108,864 bytes.

        The copy is compact JSON, with the members of each object in the order of their names. If a number is written in another way
        there, that is told first. A file of which no step changes anything keeps its bytes.

        >>> Preparation(b'{"@type":"ElectionResults.ElectionReport","Notes":null}').prepare(['nulls'])[0]
        b'{"@type":"ElectionResults.ElectionReport"}'
        """
        chosen = set(names)
        unknown = chosen - set(STEP_WORDS)
        if unknown:
            raise ValueError(f'no step has the name {min(unknown)!r}')
        goes = MARK_STEP in chosen
        told, copy = self._by_the_library(chosen - {MARK_STEP}, tells_others)
        if not any(it.done and it.count for it in told if it.name != NUMBERS):
            told, copy = [it for it in told if it.name != NUMBERS], without_mark(self.data)
        if not self.has_mark:
            return copy, told
        mark = Done(MARK_STEP, goes, [Change((), '\ufeff', ABSENT)], [], 1, 0, False)
        return copy if goes else MARK + copy, [mark, *told] if goes or tells_others else told

    def _by_the_library(self, names: Iterable[str], tells_others: bool) -> Tuple[List[Done], bytes]:
        """Returns what the library tells and writes."""
        outcome, text = prepared(without_mark(self.data), ','.join(sorted(names)).encode('ascii'), tells_others)
        if outcome == NOT_JSON:
            raise NotJson()
        if outcome != GOOD:
            raise TooLong()
        told, _, copy = text.partition(b'\n')
        return [_done_of(entry) for entry in _tree_of(told)], copy
