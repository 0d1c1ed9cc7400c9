"""Holds each file that names a command, an option, a call of the library, a reason for a fault or a class against the table of what
exists, tests/pages/exists.txt, and what tables.py writes against where it comes from. One line a file that fails, and at the end the
counts. The members of a class have a table of their own, that of docs/PROFILE.md, against which facts_and_links.py holds
the definitions."""
import re
import sys

from repository import ROOT
import tables
from cases import tell_cases


def blocks():
    """For each kind its names, and its files with what finds the names in them."""
    text = re.sub(r'^#.*\n', '', (ROOT / 'tests' / 'pages' / 'exists.txt').read_text(encoding='utf-8'), flags=re.M)
    for block in text.strip().split('\n\n'):
        (_, kind), (_, names), *files = (line.split(': ', 1) for line in block.splitlines())
        yield kind, named(*files[0]) if names == 'of the first file' else names.split('; '), files


def named(path, finder):
    """The names that an expression finds in a file, in their order."""
    return [name.lower() for name in re.findall(finder, (ROOT / path).read_text(encoding='utf-8'), re.M)]


def without_blanks(text):
    return re.sub(r'\s+', '', text)


def cases():
    for kind, names, files in blocks():
        for path, finder in files:
            text = (ROOT / path).read_text(encoding='utf-8')
            what = f'each {kind} in {path}'
            if finder.startswith('all '):
                wanted = without_blanks(re.sub(r'NAMES\{(.*?)\}', lambda found: found[1].join(names), finder[4:]))
                yield what, wanted, wanted if wanted in without_blanks(text) else 'another text'
            else:
                yield what, sorted(names), sorted(set(named(path, finder)))


if __name__ == '__main__':
    sys.exit(tell_cases([*cases(), *tables.cases()]))
