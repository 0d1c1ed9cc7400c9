"""What the page has to say of files: the answers of the reference program, the words of docs/FIXES.md and of the table of what a voter
sees, and the texts of the page."""
import hashlib
import importlib.machinery
import importlib.util
import json
import os
import re
import sys

from session import ROOT, SUITE
from voters_table import words_of_voters

TEXTS = json.loads((ROOT / 'web' / 'texts.en.json').read_text(encoding='utf-8'))
VERSION = (ROOT / 'VERSION').read_text(encoding='utf-8').strip()
MOST_BYTES = 67108864
LABELS = ('What it means.', 'Where it comes from.', 'How to fix it.')


def say(key, **values):
    """A text of the page in English, with these values in it."""
    text = TEXTS[key]
    if isinstance(text, dict):
        text = text['one' if values['count'] == 1 else 'other']
    shown = {name: f'{value:,}' if isinstance(value, int) else value for name, value in values.items()}
    return re.sub(r'\{(\w+)\}', lambda found: shown.get(found[1], found[0]), text)


def section_of_fixes(heading, body):
    """The number of a reason or `not JSON`, its words, and its three paragraphs as the page shows them."""
    number, words = re.fullmatch(r'(?:(\d+)\. )?(.*)', heading).groups()
    body = re.sub(r'\[([^\]]+)\]\([^)]+\)', r'\1', body.replace('`', ''))
    paragraphs = [re.search(rf'^\*\*{re.escape(label)}\*\* (.*)$', body, re.M) for label in LABELS]
    return words, (number, *(found and found[1] for found in paragraphs))


def fixes():
    """For the words of each reason its number, what it means, where it comes from and how it is fixed."""
    text = (ROOT / 'docs' / 'FIXES.md').read_text(encoding='utf-8')
    parts = re.split(r'^## (.+)\n', text, flags=re.M)[1:]
    return dict(section_of_fixes(heading, body) for heading, body in zip(parts[::2], parts[1::2]))


FIXES = fixes()
SEEN = words_of_voters()


class Fault:
    """A fault line, with what FIXES says of its reason."""

    def __init__(self, line):
        self.pointer, words = line.rsplit(': ', 1)
        self.words = next(it for it in FIXES if FIXES[it][0] and re.match(rf'{re.escape(it)}( |$)', words))
        self.name = words[len(self.words) + 1:]
        self.number, self.meaning, self.origin, self.fixing = FIXES[self.words]


class Program:
    """The reference program, loaded once."""

    def __init__(self):
        loader = importlib.machinery.SourceFileLoader('suite', str(SUITE / 'run'))
        suite = importlib.util.module_from_spec(importlib.util.spec_from_loader('suite', loader))
        sys.dont_write_bytecode = True
        loader.exec_module(suite)
        self.program = suite.Loaded(os.fspath(ROOT / 'reference' / 'erd_reference.py'))

    def run(self, prefer, command, *files):
        """What the command writes, with its status."""
        words = [command] + (['--prefer', prefer] if prefer else []) + [os.fspath(file) for file in files]
        out, err, status = self.program.run(words, b'')
        return status, out, err


class Answer:
    """What the program says of one file. `outcome` is the page's word; a file that no program has judged has one from the row."""

    def __init__(self, program, path, prefer, outcome=None):
        self.name, self.path, self.size = path.name, path, path.stat().st_size
        self.faults, self.form, self.types = [], None, set()
        self.outcome = outcome
        self.sum = None if outcome in ('tooLong', 'unreadable') else hashlib.sha256(path.read_bytes()).hexdigest()
        if outcome is None:
            self.ask(program, path, prefer)
        if self.outcome in ('accepted', 'refused', 'unreadable'):
            report = json.loads(path.read_bytes())
            self.types, self.status = set(types_in(report)), report.get('Status')

    def ask(self, program, path, prefer):
        status, form, err = program.run(prefer, 'canon', path)
        self.outcome = {0: 'accepted', 1: 'refused', 2: 'notJson'}[status]
        self.lines = err
        if self.outcome == 'accepted':
            self.form = form
        if self.outcome == 'refused':
            self.faults = [Fault(line) for line in err.decode('utf-8').splitlines()]

    @property
    def form_sum(self):
        return hashlib.sha256(self.form).hexdigest()


def kinds_in(report):
    """The types of all identifiers of a report, each with its other type. The report's own identifiers are not compared."""
    found, waiting = set(), [{name: value for name, value in report.items() if name != 'ExternalIdentifier'}]
    while waiting:
        value = waiting.pop()
        for inner in value.values() if isinstance(value, dict) else value:
            waiting += [inner] if isinstance(inner, (dict, list)) else []
        found |= {(one['Type'], one.get('OtherType', '')) for one in value.get('ExternalIdentifier', [])} if isinstance(value, dict) else set()
    return found


def types_in(value):
    """The types of all identifiers below a value."""
    if isinstance(value, list):
        for entry in value:
            yield from types_in(entry)
    elif isinstance(value, dict):
        for name, inner in value.items():
            if name == 'ExternalIdentifier':
                yield from (identifier['Type'] for identifier in inner)
            else:
                yield from types_in(inner)
