"""Holds `check` and `compare` against values that are put in order, and that differ where an order has to stop: in the names of their
members, before long values that are the same. Each command takes at most 1.2 times the instructions of values that differ in the
first entry of a list. An order that compares the values as well takes two to four times as many. Also `differences --json` on two
contests whose names of selections are long, of which one differs: at most three times the instructions of `compare`. Names that are
told apart by their texts take 27 times as many. And on many elections that all differ, at most three times as many too: a search
through all elections for each of them takes the square of their number. Needs valgrind and `./erd`. One line a case.
"""
import json
import os
import sys

from measuring import at_most, counted_cases, instructions
import hostile_shapes
from reports import election, identifier, unit

MOST = 1.2
COUNT, LENGTH = 500, 300
# Times a comparison, for a candidate whose key has ten times so many bytes, and a tenth as many selections that name this candidate.
MOST_FOR_NAMES, LONG = 3, 3000
# Times a comparison, for so many elections of which each differs.
MOST_FOR_ELECTIONS, MANY = 3, 8000


def carrying(member_of):
    """A report with a unit whose identifiers are alike but for one carried member, which is made of the number of each."""
    carried = [identifier("U0", **member_of(number * 7919 % COUNT)) for number in range(COUNT)]
    return hostile_shapes.report_of([{**unit("u0", "U0"), "ExternalIdentifier": carried}])


def by_name(number):
    return {"x%06d" % number: [0] * LENGTH}


def by_first_entry(number):
    return {"x": [number] + [0] * LENGTH}


def counted(command, made, folder):
    """The instructions of a command on a report, or on it and a copy with a blank more: equal bytes are judged once."""
    paths = [os.path.join(folder, name) for name in ("report", "copy")]
    for path, more in zip(paths, ("", " ")):
        with open(path, "w", encoding="utf-8") as file:
            file.write(json.dumps(made) + more)
    return instructions(["./erd", command] + paths[:1 + (command == "compare")])


def by_names(command, folder):
    """Values that differ in the names of their members."""
    ratio = counted(command, carrying(by_name), folder) / counted(command, carrying(by_first_entry), folder)
    return "values that differ in the names of members: %s takes %.2f times the instructions of others" % (command, ratio), at_most(MOST, ratio)


def long_names(folder):
    """Names that are long and the same in both reports take no longer if all differences are listed."""
    paths = [os.path.join(folder, name) for name in ("left", "right")]
    for path, more in zip(paths, ({}, {"Carried": 1})):
        made = hostile_shapes.long_key(LONG)
        made["Election"][0]["Contest"][0]["ContestSelection"][0].update(more)
        with open(path, "w", encoding="utf-8") as file:
            json.dump(made, file)
    return listed(paths, MOST_FOR_NAMES, "long names of selections, of which one differs")


def many_elections(folder):
    """The list of differences finds each of many elections in little time."""
    paths = [os.path.join(folder, name) for name in ("left", "right")]
    for path, kind in zip(paths, ("general", "primary")):
        made = hostile_shapes.report_of([unit("u0", "U0")])
        made["Election"] = [election("u0", Type=kind, ExternalIdentifier=[identifier("E%d" % number)]) for number in range(MANY)]
        with open(path, "w", encoding="utf-8") as file:
            json.dump(made, file)
    return listed(paths, MOST_FOR_ELECTIONS, "many elections that all differ")


def listed(paths, most, what):
    """All differences of two files are listed in so many times the instructions of a comparison."""
    listing, comparing = (instructions(["./erd", *words, *paths], statuses=(1,)) for words in (["differences", "--json"], ["compare"]))
    ratio = listing / comparing
    return "%s: differences --json takes %.2f times the instructions of compare" % (what, ratio), at_most(most, ratio)


def cases(folder):
    for command in ("check", "compare"):
        yield by_names(command, folder)
    yield long_names(folder)
    yield many_elections(folder)


if __name__ == "__main__":
    sys.exit(counted_cases(cases, "the values that differ in the names of members, long names and elections"))
