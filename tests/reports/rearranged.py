"""Writes random rearrangements of a report, and of edits of it that are none.

usage: rearranged.py SEED COUNT FILE FOLDER

A rearrangement gives each object that has an @id another one, also where a reference of the table names it, and shuffles
the sets of the table (docs/PROFILE.md). FOLDER gets COUNT rearrangements of the report, as same-1 and so on. For each kind
of edit it gets a fifth as many, each of a report with one such edit, as content-1 and so on.
"""
import json
import random
import sys

from member_table import members_of_kinds, table_of_page
from reports import CLASS, texts_in

# The members of each class that hold objects of the table, labels too, and those that hold references.
HOLDS, REFERENCES = ({name: members_of_kinds(name, kinds) for name in table_of_page()}
                     for kinds in (("label", "identifiers", "languages", "keyed", "elections", "content"), ("one", "many", "ordered")))
# The arrays of the table that are no sets.
LISTS = ["OrderedContent", "OrderedContestSelectionIds"]

# What names that no vendor gives are made of.
ODD = [" ", "\t", "\n", "\0", "\x7f", '"', "\\", "/", "~", "%", "@id", "e\u0301", "\u00e9", "\u2028", "\uffff", "\U0001f5f3"]


def members(entry, table):
    """The members of an object that the table has, with their names."""
    names = table.get(entry["@type"].removeprefix(CLASS), [])
    return [(name, entry[name]) for name in names if name in entry]


def objects(entry):
    """The object, and all objects of the table inside."""
    yield entry
    for _, member in members(entry, HOLDS):
        for inner in member if isinstance(member, list) else [member]:
            if isinstance(inner, dict):
                yield from objects(inner)


def new_names(report, dice):
    """Another name for each @id, no two alike: names of others, texts that are carried, canonical or odd names."""
    own = [entry["@id"] for entry in objects(report) if "@id" in entry]
    carried = set(texts_in(report)).difference(own)
    canonical = [prefix + str(number) for prefix in "gp pa pe of hd ca co cs1- cs2- cs3-".split() for number in range(1, 20)]
    odd = {"".join(dice.choices(ODD, k=dice.randrange(5))) for _ in range(20 + 2 * len(own))}
    pools = [own, carried, canonical, odd]
    pool = dice.choice([pool for pool in pools + [set().union(*pools)] if len(pool) >= len(own)])
    return dict(zip(own, dice.sample(sorted(pool), len(own))))


def rename(report, dice):
    """Gives each object another name."""
    names = new_names(report, dice)
    for entry in objects(report):
        if "@id" in entry:
            entry["@id"] = names[entry["@id"]]
        for name, member in members(entry, REFERENCES):
            entry[name] = [names[text] for text in member] if isinstance(member, list) else names[member]


def shuffle(report, dice):
    """Shuffles each set."""
    for entry in list(objects(report)):
        for name, member in members(entry, HOLDS) + members(entry, REFERENCES):
            if isinstance(member, list) and name not in LISTS:
                dice.shuffle(member)


def rearrange(report, dice):
    """Gives each object another name, and shuffles each set."""
    rename(report, dice)
    shuffle(report, dice)


def exchange(lists, dice):
    """Exchanges two entries of one of the lists that name two things."""
    def named(item):
        return [item.get("ContestId"), item.get("HeaderId")] if isinstance(item, dict) else item
    places = [(items, low, high) for items in lists for high in range(len(items)) for low in range(high)
              if named(items[low]) != named(items[high])]
    items, low, high = dice.choice(places)
    items[low], items[high] = items[high], items[low]


def edit_content(entries, dice):
    """Another order of contests and headers on the ballots of a style."""
    exchange([entry["OrderedContent"] for entry in entries if "OrderedContent" in entry], dice)


def edit_lines(entries, dice):
    """Another order of the selections of a contest on the ballots of a style."""
    exchange([entry["OrderedContestSelectionIds"] for entry in entries if "OrderedContestSelectionIds" in entry], dice)


def edit_carried(entries, dice):
    """Another order of a carried array."""
    carried = [entry["ContactInformation"] for entry in entries if "ContactInformation" in entry]
    exchange([member for inner in carried for member in inner.values() if isinstance(member, list)], dice)


def edit_identifier(entries, dice):
    """Another value of an identifier of an object."""
    identifiers = [inner for entry in entries[1:] for inner in entry.get("ExternalIdentifier", [])]
    dice.choice(identifiers)["Value"] += " changed"


def edit_translation(entries, dice):
    """Another text of a translation."""
    dice.choice([entry for entry in entries if "Content" in entry])["Content"] += " changed"


EDITS = {
    "content": edit_content,
    "lines": edit_lines,
    "carried": edit_carried,
    "identifier": edit_identifier,
    "translation": edit_translation,
}


def main():
    seed, count, name, folder = int(sys.argv[1]), int(sys.argv[2]), sys.argv[3], sys.argv[4]
    dice = random.Random(seed)
    with open(name, encoding="utf-8") as file:
        text = file.read()
    kinds = ["same"] * count + list(EDITS) * (count // 5)
    written = dict.fromkeys(kinds, 0)
    for kind in kinds:
        report = json.loads(text)
        # A style may have an @id too, which nothing names.
        for number, style in enumerate(style for election in report["Election"] for style in election["BallotStyle"]):
            style["@id"] = "style " + str(number)
        if kind in EDITS:
            EDITS[kind](list(objects(report)), dice)
        rearrange(report, dice)
        written[kind] += 1
        with open(f"{folder}/{kind}-{written[kind]}", "w", encoding="utf-8") as file:
            json.dump(report, file, ensure_ascii=dice.random() < 0.5)


if __name__ == "__main__":
    main()
