"""Decides whether one accepted report is another but for what counts for nothing in it.

By docs/PROFILE.md that is: the texts of `@id`s with the references to them, the order of the entries of sets, empty arrays
of the table, Outside members, `@id`s to which nothing refers, and the envelope. The member table is that of the page. There
are no keys here, no names of selections and no canonical form: the entries of sets and the texts of `@id`s are paired by
search, and colours that any such pairing keeps only make the search short.
"""
import json
import sys

from member_table import table_of_page
from reports import CLASS

# The kind of each member that the table lists for a class, with no family.
TABLE = {name: {member: kind.split(" ")[0] for part in parts for member, kind in part.items()}
         for name, parts in table_of_page().items()}
ENVELOPE = ["Format", "GeneratedDate", "Issuer", "IssuerAbbreviation", "VendorApplicationId", "Notes", "SequenceStart",
            "SequenceEnd", "ExternalIdentifier"]
REFERENCES = ["one", "many", "ordered"]
SETS = ["many", "identifiers", "languages", "keyed", "elections"]
LISTS = ["content", "ordered"]

sys.setrecursionlimit(100000)


# ---- what counts


def class_of(entry):
    return entry["@type"].removeprefix(CLASS)


def kind_of(entry, name):
    """The kind of a member; none for `@type`, `@id`, and for a Carried member."""
    return TABLE[class_of(entry)].get(name, "")


def is_envelope(entry, name):
    return class_of(entry) == "ElectionReport" and name in ENVELOPE


class Value:
    """A value of which all counts. The content is a text, or values in a list, or values by their names."""

    def __init__(self, form, content, own=None):
        self.form, self.content, self.own, self.colour = form, content, own, None
        self.inside = list(content.values()) if isinstance(content, dict) else content if isinstance(content, list) else []


def value_of(kind, value):
    if kind in REFERENCES and isinstance(value, str):
        return Value("reference", value)
    if kind in SETS + LISTS:
        entries = [Value("reference", entry) if isinstance(entry, str) else object_of(entry) for entry in value]
        return Value("set" if kind in SETS else "list", entries)
    if kind == "label" and isinstance(value, dict):
        return object_of(value)
    return Value("plain", json.dumps(value, sort_keys=True))


def object_of(entry):
    counts = {}
    for name, value in entry.items():
        kind = kind_of(entry, name)
        is_empty = value == [] and kind in SETS + LISTS + ["outside"]
        if name != "@id" and not is_empty and not is_envelope(entry, name):
            counts[name] = value_of(kind, value)
    return Value("object", counts, entry.get("@id"))


def all_inside(value):
    """The values in this one, and then itself."""
    for inner in value.inside:
        yield from all_inside(inner)
    yield value


def values_of(report):
    """The values of a report, the report itself at the end. An `@id` to which nothing refers is none."""
    values = list(all_inside(object_of(report)))
    used = {value.content for value in values if value.form == "reference"}
    for value in values:
        if value.own not in used:
            value.own = None
    return values


# ---- colours, which values have in common if they can be paired


def give_colours(values, named, numbers):
    """Gives each value a number, by what it holds. A reference has that of what it names."""
    for value in values:
        if value.form == "reference":
            held = named.get(value.content, 0)
        elif value.form == "object":
            held = (value.own is not None, tuple(sorted((name, inner.colour) for name, inner in value.content.items())))
        elif value.form == "plain":
            held = value.content
        else:
            colours = [inner.colour for inner in value.inside]
            held = tuple(sorted(colours) if value.form == "set" else colours)
        value.colour = numbers.setdefault((value.form, held), len(numbers) + 1)
    return {value.own: value.colour for value in values if value.own is not None}


def refine(reports):
    """Gives colours until what is named has no more of them than before."""
    numbers, named, before, count = {}, [{} for _ in reports], -1, 0
    while before < count:
        named = [give_colours(values, colours, numbers) for values, colours in zip(reports, named)]
        before, count = count, len({colour for colours in named for colour in colours.values()})


# ---- the search


def pair_texts(left, right, there, back):
    """Goes on if the texts stand for one thing, and undoes what it has noted."""
    if left in there or right in back:
        if there.get(left) == right and back.get(right) == left:
            yield
    else:
        there[left], back[right] = right, left
        yield
        del there[left], back[right]


def pair_in_order(pairs, there, back):
    if not pairs:
        yield
    else:
        for _ in pair(*pairs[0], there, back):
            yield from pair_in_order(pairs[1:], there, back)


def pair_in_any_order(lefts, rights, there, back):
    if not lefts:
        yield
    for index, right in enumerate(rights if lefts else []):
        for _ in pair(lefts[0], right, there, back):
            yield from pair_in_any_order(lefts[1:], rights[:index] + rights[index + 1:], there, back)


def pair_contents(left, right, there, back):
    """Each way to pair what is in two values of one form, with as much in both."""
    if left.form == "reference":
        yield from pair_texts(left.content, right.content, there, back)
    elif left.form == "plain":
        yield from [None] if left.content == right.content else []
    elif left.form == "object":
        if left.content.keys() == right.content.keys():
            yield from pair_in_order([(inner, right.content[name]) for name, inner in left.content.items()], there, back)
    elif left.form == "set":
        yield from pair_in_any_order(left.content, right.content, there, back)
    else:
        yield from pair_in_order(list(zip(left.content, right.content)), there, back)


def pair(left, right, there, back):
    """Each way to pair two values, with the texts of `@id`s that are noted."""
    is_alike = left.colour == right.colour and left.form == right.form and len(left.inside) == len(right.inside)
    if is_alike and left.own is None and right.own is None:
        yield from pair_contents(left, right, there, back)
    elif is_alike and left.own is not None and right.own is not None:
        for _ in pair_texts(left.own, right.own, there, back):
            yield from pair_contents(left, right, there, back)


def says_the_same(left, right):
    """Whether one report is the other but for what counts for nothing."""
    reports = [values_of(left), values_of(right)]
    refine(reports)
    return any(True for _ in pair(*(values[-1] for values in reports), {}, {}))
