"""Reads tests/bodies/lists, which say what is wrong and who has to notice it.

A list has sections. Each begins with a block of lines: `noticed by: a contract`, `noticed by: the conformance suite`, or `noticed by:` and
a command; `list:` and its name, which is else that of the file; `build:`, what comes before the command; `file:`, where all that follows
stands. Each other block is something wrong, as lines `word: value`. It has a `name` and pairs of texts `old` and `new`, in a `file`, in
which the old text stands once; there \\n stands for a line feed, and two backslashes for one. With a line `gate: WHY` the gate tries it.
"""
import collections
import dataclasses
import pathlib
import re

TOP = pathlib.Path(__file__).resolve().parents[2]
LISTS = TOP / 'tests' / 'bodies' / 'lists'
CONTRACT, SUITE = 'a contract', 'the conformance suite'


class BadList(Exception):
    """A list that can't be read, or something wrong that can't be put in, with the reason."""


@dataclasses.dataclass
class Wrong:
    """Something wrong: its texts as file, old and new, the case that has to fail and the batch in which it is tried, why the gate tries
    it, the functions that have to be refused where these are not the ones that it changes, and for a family of programs the texts of
    each word and when there is none."""

    name: str
    changes: list
    case: str = ''
    batch: int = 0
    gate: str = ''
    functions: list = dataclasses.field(default_factory=list)
    each: dict = dataclasses.field(default_factory=dict)
    unless: str = ''


@dataclasses.dataclass
class List:
    """A section: what its lines say, and what is wrong."""

    name: str
    noticed_by: str
    path: pathlib.Path
    build: str = 'true'
    file: str = ''
    wrongs: list = dataclasses.field(default_factory=list)

    @property
    def kind(self):
        return {CONTRACT: 'bodies', SUITE: 'programs'}.get(self.noticed_by, 'lines')


def unescaped(text):
    return re.sub(r'\\([n\\])', lambda found: '\n' if found[1] == 'n' else '\\', text)


def escaped(text):
    return text.replace('\\', '\\\\').replace('\n', '\\n')


def wrong_of(block, file='', meant=unescaped):
    """Something wrong, from its block. `meant` gives the text that stands behind `old` or `new`."""
    found, old = Wrong('', []), None
    for line in block.splitlines():
        word, _, value = line.partition(':')
        value = value.removeprefix(' ')
        if word == 'file':
            file = value
        elif word == 'old':
            old = meant(value)
        elif word == 'new':
            found.changes.append((file, old, meant(value)))
        elif word == 'fn':
            found.functions.append(value)
        elif word.startswith('each '):
            found.each[word[len('each '):]] = value.split(' ')
        elif word in ('name', 'case', 'gate', 'unless'):
            setattr(found, word, value)
        elif word == 'batch':
            found.batch = int(value)
        else:
            raise BadList(f'no list has a line {line}')
    if not found.name or not found.changes or not all(file and old for file, old, _ in found.changes):
        raise BadList(f'there is no name, file or pair of texts in:\n{block}')
    return found


def sections_of(path):
    """The sections of a list."""
    sections = []
    for block in re.split(r'\n\n+', re.sub(r'^#.*\n', '', path.read_text(encoding='utf-8'), flags=re.M).strip('\n')):
        if re.search('^noticed by: ', block, re.M):
            words = {word.replace(' ', '_'): value for word, _, value in (line.partition(': ') for line in block.splitlines())}
            sections.append(List(words.pop('list', path.stem), words.pop('noticed_by'), path, **words))
        else:
            sections[-1].wrongs.append(wrong_of(block, sections[-1].file))
    return sections


def lists():
    """All sections of all lists."""
    return [section for path in sorted(LISTS.glob('*.txt')) for section in sections_of(path)]


def texts_with(wrongs, read):
    """The files that these change, as path to text, with all of them in. `read` gives the text of a path."""
    texts = {}
    for wrong in wrongs:
        for file, old, new in wrong.changes:
            text = texts.get(file) or read(file)
            if text.count(old) != 1:
                raise BadList(f'{wrong.name}: {file} has {text.count(old)} times, and not once: {old}')
            texts[file] = text.replace(old, new)
    return texts


def of_repository(file):
    return (TOP / file).read_text(encoding='utf-8')


def misfit(wrongs, read=of_repository):
    """Why these can't be put in together, or nothing."""
    try:
        texts_with(wrongs, read)
    except (BadList, OSError) as error:
        return str(error)
    return ''


def batches_of(wrongs):
    """These by their batches. What has none is a batch of its own."""
    batches = collections.defaultdict(list)
    for wrong in wrongs:
        batches[wrong.batch or wrong.name].append(wrong)
    return list(batches.values())
