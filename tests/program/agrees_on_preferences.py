"""Compares `erd` with the reference program (reference/erd_reference.py) under each of a dozen types of identifiers: every byte
and status of `check`, `canon` and `compare` with the type as `--prefer` and without, and of the filter, which takes none.

usage: agrees_on_preferences.py

The reports are made so that the type matters: it reverses the order of two units, or gives two units one key.
"""
import json
import sys
import tempfile

from agrees_with_reference import by_erd, by_reference
from cases import tell
from reports import identifier, report, unit

TYPES = ['local-level', 'fips', 'check', 'compare', 'help', 'TYPE', 'two  words', ' -x', 'a\nb', 'a=b', '"\\/', '\u00e9', 'e\u0301',
         'Gemeindeschl\u00fcssel-\U0001f5f3']


def unit_of(name, least, kind, value):
    """A unit with an identifier of the empty type, which is the least, and one of this type."""
    return {**unit(name, value), 'ExternalIdentifier': [identifier(value, kind), identifier(least, '')]}


def reports_of(kind):
    """Reports with two units. The type reverses their order in `apart`; in `twins` it gives them one key."""
    first, second = unit_of('u7', '20', kind, 'U1'), unit_of('u8', '10', kind, 'U2')
    return {
        'apart': report([first, second], 'u7'),
        'changed': report([{**first, 'Type': 'state'}, second], 'u7'),
        'twins': report([first, unit_of('u8', '10', kind, 'U1')], 'u7'),
        'refused': {**report([first, second], 'u7'), 'Status': 'certified'},
    }


RUNS = [
    ('check', 'apart'), ('check', 'twins'), ('check', 'refused'), ('canon', 'apart'), ('canon', 'twins'), ('filter', 'apart'),
    ('filter', 'twins'), ('compare', 'apart', 'apart'), ('compare', 'apart', 'changed'), ('compare', 'twins', 'apart'),
    ('compare', 'apart', 'twins'), ('compare', 'apart', 'refused'),
]


def failures(kind, folder):
    """What is wrong under the type."""
    reports = {name: json.dumps(value).encode() for name, value in reports_of(kind).items()}
    wanted = {}
    found = []
    for command, *names in RUNS:
        inputs = [reports[name] for name in names]
        for prefer in [None] if command == 'filter' else [None, kind]:
            run = (command, *names, prefer)
            wanted[run] = by_reference(command, inputs, prefer)
            if by_erd(command, inputs, prefer, folder) != wanted[run]:
                found.append('%s %s, preference %a' % (command, names, prefer))
    for run in (('check', 'twins'), ('canon', 'apart'), ('compare', 'apart', 'changed')):
        if wanted[run + (None,)] == wanted[run + (kind,)]:
            found.append('the preference changes no answer of %s' % (run,))
    return found


if __name__ == '__main__':
    with tempfile.TemporaryDirectory() as made:
        sys.exit(tell(('%d runs under %a' % (2 * len(RUNS) - 2, kind), '; '.join(failures(kind, made))) for kind in TYPES))
