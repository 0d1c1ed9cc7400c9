"""Reads JSON that a usual converter made from XML, as if it were the XML: attributes have names that begin with `@`, or stand in
`@attributes`; the text of an element that has more is `#text`; one element is no list; and numbers are texts."""

from __future__ import annotations

from typing import Iterator, List, Optional, Tuple

from ..tree import Tree, WrittenNumber
from .converting import BLANKS, MOST_OF_NAME, NIL, ROOT, TYPE, Converter, NotXml
from .reading import NO_NAMESPACE, VERSIONS

ATTRIBUTES, TEXT = '@attributes', '#text'
MARKED = ('@xmlns', '@xsi:')
PASSED_OVER = ('xmlns', 'xsi:schemaLocation', 'xsi:noNamespaceSchemaLocation')
NO_SUCH = 'JSON that no usual converter makes of XML'


def local(name: str) -> str:
    """Returns a name without its prefix."""
    return name.rpartition(':')[2]


def root_of(tree: Tree) -> Optional[dict]:
    """Returns the root of what was made from XML, or None if it was not."""
    if not isinstance(tree, dict) or '@type' in tree:
        return None
    names = [name for name in tree if not name.startswith('?')]
    if len(names) == 1 and local(names[0]) == ROOT and isinstance(tree[names[0]], dict):
        return tree[names[0]]
    is_marked = isinstance(tree.get(ATTRIBUTES), dict) or any(name.startswith(MARKED) for name in tree)
    return tree if is_marked else None


def attributes_of(members: dict) -> List[Tuple[str, Tree]]:
    """Returns the attributes of an element, by their names in XML."""
    inner = members.get(ATTRIBUTES, {})
    return [*((name[1:], value) for name, value in members.items() if name.startswith('@') and name != ATTRIBUTES),
            *(inner.items() if isinstance(inner, dict) else [(ATTRIBUTES, inner)]),
            *((name, members[name]) for name in (TYPE, NIL) if name in members)]


def texts_of(attributes: List[Tuple[str, Tree]]) -> List[Tuple[str, str]]:
    """Returns those attributes that say something of the report, with texts."""
    return [(name, text_of(value)) for name, value in attributes if not (name in PASSED_OVER or name.startswith('xmlns:'))]


def text_of(value: Tree) -> str:
    """Returns a value as XML writes it."""
    if isinstance(value, bool):
        return 'true' if value else 'false'
    if isinstance(value, WrittenNumber):
        return value.text
    if isinstance(value, str):
        return value
    raise NotXml(NO_SUCH)


class _Walk:
    """A walk through the elements, in their order."""

    def __init__(self, root: dict) -> None:
        spaces = [(name, value) for name, value in attributes_of(root) if name.startswith('xmlns') and isinstance(value, str)]
        version = next((VERSIONS[value] for _, value in spaces if value in VERSIONS), None)
        self.foreign = {name[len('xmlns:'):] for name, value in spaces if name.startswith('xmlns:') and value not in VERSIONS}
        self.converter = Converter(version or 2, lambda: None)
        self.open: List[Iterator[Tuple[str, Tree]]] = []
        self.begin(ROOT, root)
        if version is None:
            self.converter.tell(NO_NAMESPACE)

    def run(self) -> Converter:
        """Walks to the end."""
        while self.open:
            entry = next(self.open[-1], None)
            if entry is not None:
                self.begin(*entry)
            else:
                self.open.pop()
                self.converter.end()
        return self.converter

    def begin(self, name: str, value: Tree) -> None:
        """Begins an element."""
        attributes = attributes_of(value) if isinstance(value, dict) else [(NIL, 'true')] if value is None else []
        texts = [(inner, self.own(text.strip(BLANKS)) if inner == TYPE else text) for inner, text in texts_of(attributes)]
        self.converter.start(self.own(name), texts)
        text = value.get(TEXT) if isinstance(value, dict) else value
        if text is not None:
            self.take_text(text)
        self.open.append(self.elements_of(value) if isinstance(value, dict) else iter(()))

    def own(self, name: str) -> str:
        """Returns a name without its prefix, if that does not stand for another namespace."""
        return name if name.rpartition(':')[0] in self.foreign else local(name)

    def elements_of(self, members: dict) -> Iterator[Tuple[str, Tree]]:
        """Gives the elements in an element. One that is no list stands alone."""
        for name, value in members.items():
            if not name.startswith('@') and name not in (TEXT, TYPE, NIL):
                if value == []:
                    self.converter.tell(f'{name[:MOST_OF_NAME]} is an empty list; it is left out')
                for entry in value if isinstance(value, list) else [value]:
                    yield name, entry

    def take_text(self, text: Tree) -> None:
        """Takes the text of an element."""
        if isinstance(text, WrittenNumber) and self.converter.frames[-1].shape.word not in ('whole', 'number'):
            self.converter.tell('a number in the place of a text: zeros before it may be lost')
        self.converter.text(text_of(text))


def read_born(root: dict) -> Converter:
    """Reads JSON that was made from XML, and returns the converter that has taken it."""
    return _Walk(root).run()


__all__ = ['read_born', 'root_of']
