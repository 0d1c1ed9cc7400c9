"""The tree of a report, from which the same values can be written again: numbers as they are written, and the members of an object
in the order in which they are written. Of a name that is written twice the last value counts, as for erd."""

from __future__ import annotations

import json
from typing import List, Union

MARK = b'\xef\xbb\xbf'
MOST_LEVELS = 127


class NotJson(ValueError):
    """The bytes are not JSON."""

    def __init__(self) -> None:
        super().__init__('not JSON')


class WrittenNumber:
    """A number as it is written."""

    __slots__ = ('text',)

    def __init__(self, text: str) -> None:
        self.text = text


Tree = Union[None, bool, str, WrittenNumber, List['Tree'], dict]


def without_mark(data: bytes) -> bytes:
    """Returns the bytes without a byte order mark before them."""
    return data[len(MARK):] if data.startswith(MARK) else data


def read_tree(data: bytes) -> Tree:
    """Returns the tree of a report. A byte order mark before it is passed over.

    >>> written(read_tree(b'{"a": 1.50, "b": 18446744073709551616, "a": 2}'))
    '{"a":2,"b":18446744073709551616}'
    """
    try:
        tree = json.loads(without_mark(data).decode('utf-8'), parse_int=_number, parse_float=_number, parse_constant=_no_number)
    except (ValueError, RecursionError):
        raise NotJson() from None
    _judge(tree, 1)
    return tree


def _number(text: str) -> WrittenNumber:
    if not text.isascii() or float(text) in (float('inf'), float('-inf')):
        raise NotJson()
    return WrittenNumber(text)


def _no_number(_: str) -> None:
    raise NotJson()


def _judge(tree: Tree, level: int) -> None:
    """Raises NotJson for half a surrogate pair, and for more levels than erd reads."""
    if isinstance(tree, str):
        _judge_text(tree)
    elif isinstance(tree, (list, dict)):
        if level > MOST_LEVELS:
            raise NotJson()
        for name in tree if isinstance(tree, dict) else ():
            _judge_text(name)
        for inner in tree.values() if isinstance(tree, dict) else tree:
            _judge(inner, level + 1)


def _judge_text(text: str) -> None:
    if not text.isascii() and any('\ud800' <= letter <= '\udfff' for letter in text):
        raise NotJson()


def text_of(text: str) -> str:
    """Returns the JSON text of a text."""
    return json.dumps(text, ensure_ascii=False)


LITERALS = {None: 'null', True: 'true', False: 'false'}


def written(value: Tree) -> str:
    """Returns the compact text of a value.

    >>> written({'b': [None, True], 'a': WrittenNumber('1.0')})
    '{"b":[null,true],"a":1.0}'
    """
    if isinstance(value, dict):
        return '{' + ','.join(f'{text_of(name)}:{written(inner)}' for name, inner in value.items()) + '}'
    if isinstance(value, list):
        return '[' + ','.join(map(written, value)) + ']'
    if isinstance(value, WrittenNumber):
        return value.text
    return text_of(value) if isinstance(value, str) else LITERALS[value]
