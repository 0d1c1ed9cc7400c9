"""Answers with a list, of which a caller takes as much as it wants."""

from __future__ import annotations

import json
from typing import Optional, Tuple

from .library import ALL, GOOD, Answer, first_piece, pieces

# How many faults, or differences, are listed if the caller names no other number.
MOST_LISTED = 1000


def listed(name: str, reports: Tuple[bytes, ...], prefer: Optional[str], most: Optional[int]) -> Tuple[object, int]:
    """Returns the value that the library answers, with so many entries of its list, and how many the list has."""
    answer = answered(name, reports, prefer, most)
    return answer.taken, answer.all


def answered(name: str, reports: Tuple[bytes, ...], prefer: Optional[str], most: Optional[int]) -> Answer[object]:
    """Returns what the library answers, with so many entries of its list. Entries whose texts are long are fewer than that; but all
    of them are there if none is the most."""
    def value_of(text: memoryview, outcome: int) -> object:
        is_form = name == 'erd_canonical_data_piece' and outcome == GOOD
        return bytes(text) if is_form else json.loads(bytes(text))

    if most is not None:
        return first_piece(name, reports, bytes_of_type(prefer), most_of(most), value_of)
    answers = pieces(name, reports, bytes_of_type(prefer), ALL, value_of)
    first = next(answers)
    for more in answers:
        entries_of(first.taken).extend(entries_of(more.taken))
    return first


def entries_of(data: object) -> list:
    """Returns the list in a value: of faults, or of differences."""
    return data['faults'] if isinstance(data, dict) else data


def most_of(most: int) -> int:
    """Returns the most entries as the library takes them."""
    if not isinstance(most, int):
        raise TypeError(f'the bound on a list is a whole number or None, and not {type(most).__name__}')
    if not 0 <= most <= ALL:
        raise ValueError('the bound on a list is below 0 or too large')
    return most


def bytes_of_type(prefer: Optional[str]) -> Optional[bytes]:
    """Returns the type of identifier as the library takes it."""
    if prefer is None:
        return None
    if not isinstance(prefer, str):
        raise TypeError(f'prefer is text, and not {type(prefer).__name__}')
    if '\0' in prefer:
        raise ValueError('prefer has a zero character in it')
    return utf_8(prefer, 'prefer')


def utf_8(text: str, what: str) -> bytes:
    """Returns the bytes of a text. Half a surrogate pair has none: Python has such a character where bytes were read as another
    text, or where the JSON of a program split a character."""
    try:
        return text.encode('utf-8')
    except UnicodeEncodeError:
        raise ValueError(f'{what} has half a surrogate pair, so it has no form in UTF-8') from None
