"""The member table of docs/PROFILE.md: what each class requires and may have; and its families, with their classes."""
import pathlib
import re

PAGE = pathlib.Path(__file__).resolve().parents[2] / 'docs' / 'PROFILE.md'


def cell(words, table, column):
    """The members of a cell, with their kinds. `those of CLASS` stands for those of another class."""
    found = {}
    for part in words.split('; '):
        other = re.fullmatch(r'those of (\w+)', part)
        if other:
            found.update(table[other.group(1)][column])
        elif part != 'none':
            name, kind = re.fullmatch(r'`(\w+)` (\w+(?: \w+)?)(?: \((?:reason 12|not empty)\))?', part).groups()
            found[name] = kind.lower()
    return found


def table_of_page():
    """For each class of the page the required and the optional members, with their kinds."""
    section = PAGE.read_text(encoding='utf-8').split('### The member table')[1].split('\n### ')[0]
    table = {}
    for name, required, optional in re.findall(r'^\| (\w+)(?:, the envelope)? \| (.*?) \| (.*?) \|$', section, re.M):
        if name == 'Class':
            continue
        pair = table.setdefault(name, ({}, {}))
        pair[0].update(cell(required, table, 0))
        pair[1].update(cell(optional, table, 1))
    return table


def members_of_kinds(name, kinds):
    """The members of a class of the page that have one of these kinds, of whatever family."""
    return [member for part in table_of_page()[name] for member, kind in part.items() if kind.split(' ')[0] in kinds]


def families_of_page():
    """The rows of the families: the name of each, and its classes. Classes that belong to none have rows named so."""
    section = PAGE.read_text(encoding='utf-8').split('| Family | Classes |')[1].split('\n\n')[0]
    return [(family, classes.split(', ')) for family, classes in re.findall(r'^\| (\w+) \| ([\w, ]+) \| .* \|$', section, re.M)]
