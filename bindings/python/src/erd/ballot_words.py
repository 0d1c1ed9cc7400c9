"""What ballots print of the objects of a report."""

from __future__ import annotations

from dataclasses import dataclass
from typing import Any, Dict, Optional, Tuple

from .results import Check, Key, SelectionName, key_of, selection_name_of


@dataclass(frozen=True)
class SelectionWords:
    """What ballots print of a selection of a contest."""

    name: SelectionName
    words: Dict[str, Any]


@dataclass(frozen=True)
class ObjectWords:
    """What ballots print of an object. Keys stand in place of references, as lists of three texts."""

    part: str
    """`unit`, `party`, `person`, `office`, `header`, `election`, `candidate` or `contest`."""

    key: Optional[Key]
    """Type, OtherType and Value of its key. A sole election without external identifiers has none."""

    type: str
    """The `@type` of the object."""

    words: Dict[str, Any]
    """Its members that ballots print, or may print."""

    selections: Tuple[SelectionWords, ...] = ()
    """The selections of a contest, in the rising order of their names."""


@dataclass(frozen=True)
class WordList:
    """What ballots print of the objects of a report, each object once, or why nothing is listed."""

    check: Check
    """The result of checking the report."""

    entries: Tuple[ObjectWords, ...] = ()
    """One for each object: part by part, and by rising keys."""

    all_entries: int = 0
    """How many objects there are."""

    @property
    def more(self) -> bool:
        """Whether there are more entries, or more faults, than are listed."""
        return len(self.entries) < self.all_entries or self.check.more

    def __bool__(self) -> bool:
        return self.check.accepted


def entry_of(data: dict) -> ObjectWords:
    """Returns an entry of the library."""
    selections = tuple(SelectionWords(selection_name_of(it['name']), it['words']) for it in data.get('selections', ()))
    return ObjectWords(data['part'], key_of(data['key']), data['class'], data['words'], selections)


def words_of(data: list, all_entries: int) -> WordList:
    """Returns the list in an answer of the library for an accepted report."""
    return WordList(Check(is_json=True), tuple(map(entry_of, data)), all_entries)
