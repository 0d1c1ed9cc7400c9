"""Rearranges exports as vendors write them, which may be refused: objects may lack a class, and references an object."""

import json

from rearranged import HOLDS, LISTS, REFERENCES
from reports import places

# The members that hold objects of the table, and those that hold references.
HELD, REFERRED = ({name for names in table.values() for name in names} for table in (HOLDS, REFERENCES))


def rearranged(report, dice):
    """A report with other system names, and with each set and the members of each object in another order. What has another shape
    than the standard's stays."""
    report = json.loads(json.dumps(report))
    names = new_names(report, dice)
    for place in places(report):
        if isinstance(place, dict):
            for name, value in place.items():
                if name == '@id' or name.endswith(('Id', 'Ids')):
                    place[name] = [in_new(names, text) for text in value] if isinstance(value, list) else in_new(names, value)
    shuffle_sets(report, dice)
    return with_other_members(report, dice)


def shuffle_sets(entry, dice):
    """Shuffles each set of the table. The names say what is a set, since a damaged object may lack its class."""
    for name, member in entry.items():
        if name in HELD | REFERRED and name not in LISTS and isinstance(member, list):
            dice.shuffle(member)
        for inner in (member if isinstance(member, list) else [member]) if name in HELD else []:
            if isinstance(inner, dict):
                shuffle_sets(inner, dice)


def new_names(report, dice):
    old = sorted({place['@id'] for place in places(report) if isinstance(place, dict) and isinstance(place.get('@id'), str)})
    new = [f'new-{number}' for number in range(len(old))]
    dice.shuffle(new)
    return dict(zip(old, new))


def in_new(names, text):
    return names.get(text, text) if isinstance(text, str) else text


def with_other_members(value, dice):
    if isinstance(value, dict):
        members_of_value = [(name, with_other_members(inner, dice)) for name, inner in value.items()]
        dice.shuffle(members_of_value)
        return dict(members_of_value)
    return [with_other_members(entry, dice) for entry in value] if isinstance(value, list) else value
