"""The changes of an accepted report that count for nothing (docs/PROFILE.md), and small edits of it of which each counts."""
import json

from member_table import families_of_page, table_of_page
from rearranged import objects, rename, shuffle
from meaning_by_search import ENVELOPE, REFERENCES, SETS, TABLE, class_of, is_envelope, kind_of
from reports import CLASS, identifier, ids_in, texts_in

REQUIRED = {name: required for name, (required, _) in table_of_page().items()}
ARRAYS = SETS + ["content", "ordered", "outside"]
# The classes whose objects have no `@id`.
UNNAMED = [name for family, classes in families_of_page() if family == "none" for name in classes]
WORDS = ["", "x", "canonical", "2026-11-03", "\u00e9", "\U0001f5f3", "@id", "gp1"]
NUMBERS = [0, 1, -1, 2**64 - 1, -2**63]
# Names that no class lists, and some that only other classes list.
CARRIED = ["Foo", "", "contest", "Contest", "ContestSelection", "OfficeGroup", "OtherCounts", "IsWriteIn", "Notes", "Text"]
VALUES = [None, False, True, 0, -1, "", "x", {}, [[]], [0, 1], [0, None], ["a1", "a2", "a1"], [{"Foo": []}, {}]]
# The classes of objects that may stand in one place.
BESIDE = [classes for _, classes in families_of_page() if len(classes) > 1]
# What a member of no value is given in an edit.
ABSENT = object()


# ---- changes that count for nothing


def references(entry):
    """The texts that are references in an object."""
    for name, member in entry.items():
        if kind_of(entry, name) in REFERENCES:
            yield from member if isinstance(member, list) else [member]


def change_absent(report, dice):
    """Puts empty arrays and unused `@id`s, and takes others away."""
    entries = list(objects(report))
    used = {text for entry in entries for text in references(entry)}
    free = sorted(set(texts_in(report)) - ids_in(report))
    for entry in entries:
        for name in TABLE[class_of(entry)]:
            if kind_of(entry, name) in ARRAYS and entry.get(name, []) == [] and dice.random() < 0.4:
                entry[name] = []
            elif entry.get(name) == [] and dice.random() < 0.5:
                del entry[name]
        if class_of(entry) not in UNNAMED and entry.get("@id") not in used and dice.random() < 0.6:
            entry.pop("@id", None)
            if free and dice.random() < 0.5:
                entry["@id"] = free.pop(dice.randrange(len(free)))


def change_envelope(report, dice):
    """Other members of the envelope."""
    values = {"word": lambda: dice.choice(WORDS), "whole": lambda: dice.choice(NUMBERS),
              "identifiers": lambda: [identifier(value) for value in dice.sample(WORDS, dice.randrange(3))]}
    for name in ENVELOPE:
        report.pop(name, None)
        if dice.random() < 0.6:
            report[name] = values[kind_of(report, name)]()


CHANGES = {"rename": rename, "shuffle": shuffle, "absent": change_absent, "envelope": change_envelope}


def change_all(report, dice):
    """All of these, some more than once."""
    for change in dice.sample(list(CHANGES.values()) * 2, dice.randrange(4, 9)):
        change(report, dice)


# ---- edits: each gives the members that an object can be given, with other values


def listed(entry, *kinds):
    """The members of an object that count, of these kinds of the table."""
    return [(name, value) for name, value in entry.items()
            if name not in ("@type", "@id") and kind_of(entry, name) in kinds and not is_envelope(entry, name)]


def other_text(entry, _):
    """Texts with a letter or a space more, or with capitals for small letters."""
    return [(name, other) for name, value in listed(entry, "word", "label") if isinstance(value, str)
            for other in (value + "x", value + " ", value.swapcase()) if other != value]


def other_identifier(entry, _):
    return [("Value", entry["Value"] + "x")] if class_of(entry) == "ExternalIdentifier" else []


def other_number(entry, _):
    return [(name, value + 1 if value < NUMBERS[-2] else 0) for name, value in listed(entry, "whole")]


def other_class(entry, _):
    return [("@type", CLASS + name) for names in BESIDE if class_of(entry) in names for name in names if name != class_of(entry)]


def other_flag(entry, _):
    return [(name, not value) for name, value in listed(entry, "flag")]


def false_for_absent(entry, _):
    return [(name, False) for name in TABLE[class_of(entry)] if kind_of(entry, name) == "flag" and name not in entry]


def no_member(entry, _):
    return [(name, ABSENT) for name, _ in listed(entry, "word", "label", "whole", "flag", "one", "")
            if name not in REQUIRED[class_of(entry)]]


def carried_empty_array(entry, _):
    return [(name, []) for name in CARRIED if name not in TABLE[class_of(entry)] and name not in entry]


def carried_value(entry, _):
    return [(name, value) for name in CARRIED if name not in TABLE[class_of(entry)] and name not in entry for value in VALUES]


def other_carried(entry, _):
    return [(name, [value]) for name, value in listed(entry, "")]


def other_reference(entry, entries):
    """References to something else of the same class."""
    classes = {other["@id"]: class_of(other) for other in entries if "@id" in other}
    for name, member in listed(entry, *REFERENCES):
        texts = member if isinstance(member, list) else [member]
        for index, text in enumerate(texts):
            for other in classes:
                if other != text and classes[other] == classes[text]:
                    yield name, texts[:index] + [other] + texts[index + 1:] if isinstance(member, list) else other


def one_less(entry, _):
    return [(name, member[:index] + member[index + 1:]) for name, member in listed(entry, *ARRAYS) for index in range(len(member))]


def one_twice(entry, _):
    return [(name, member[:index] + member[index:index + 1] + member[index:])
            for name, member in listed(entry, "content", "ordered") for index in range(len(member))]


def named_by(item):
    """What an entry of a list names, or the entry itself if nothing in it is a reference."""
    return json.dumps([item.get("ContestId"), item.get("HeaderId")] if isinstance(item, dict) else item)


def exchanged(member, text_of):
    """The list with two entries exchanged that have two texts."""
    for high in range(len(member)):
        for low in range(high):
            if text_of(member[low]) != text_of(member[high]):
                yield member[:low] + [member[high]] + member[low + 1:high] + [member[low]] + member[high + 1:]


def other_order(entry, _):
    """Another order on the ballot."""
    return [(name, other) for name, member in listed(entry, "content", "ordered") for other in exchanged(member, named_by)]


def other_order_of_carried(entry, _):
    return [(name, other) for name, member in listed(entry, "") if isinstance(member, list)
            for other in exchanged(member, lambda item: json.dumps(item, sort_keys=True))]


EDITS = {
    "a text": other_text,
    "an identifier's value": other_identifier,
    "a number": other_number,
    "a class": other_class,
    "a truth value": other_flag,
    "false for absent": false_for_absent,
    "a member less": no_member,
    "a carried empty array": carried_empty_array,
    "a carried value": carried_value,
    "another carried value": other_carried,
    "a reference": other_reference,
    "an entry less": one_less,
    "an entry twice": one_twice,
    "the order of a list": other_order,
    "the order of a carried array": other_order_of_carried,
}


def objects_that_count(report):
    of_envelope = report.get("ExternalIdentifier", [])
    return [entry for entry in objects(report) if not any(entry is other for other in of_envelope)]


def exchange_members(report, dice):
    """Exchanges a member of two objects of one class, their `@id`s too. It may count for nothing."""
    entries = objects_that_count(report)
    for _ in range(20):
        one = dice.choice(entries)
        other = dice.choice([entry for entry in entries if class_of(entry) == class_of(one)])
        names = [name for name in one if name in other and one[name] != other[name]]
        if names:
            name = dice.choice(names)
            one[name], other[name] = other[name], one[name]
            break


def edit(report, dice, kind):
    """Makes one edit of the kind in the report. False if there is nothing to edit so."""
    entries = objects_that_count(report)
    found = [(entry, name, value) for entry in entries for name, value in EDITS[kind](entry, entries)]
    if found:
        entry, name, value = dice.choice(found)
        if value is ABSENT:
            del entry[name]
        else:
            # A copy by its text has nothing in common with the report, and no part of it in two places.
            entry[name] = json.loads(json.dumps(value))
    return bool(found)
