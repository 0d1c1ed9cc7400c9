"""Holds `check` against files that crowd an index under a salt that was known before their texts were chosen: for each index, under no
salt, under fixed ones, and under a salt that leaves out what tells the keys of this index apart; and `compare` against the names of
both reports, also under the salt of the left one alone, and against the numbers that these names get. Each takes at most 1.2 times
the instructions of a file of the same size whose keys crowd nothing. An index whose salt is like one of these takes several times as
many. Beside that it compares the salt that tests/reports/colliding.py works out with the one that the tests of the program know, and
looks for indexes that hash without a salt. Needs valgrind, `./erd` and a C compiler. One line a case.

usage: crowding.py [INDEX ..]; where CASES in the environment has lines, each a case, only these are tried
"""
import functools
import glob
import json
import os
import re
import sys

from measuring import at_most, counted_cases, instructions
import colliding
import hostile_shapes
from reports import CLASS, contest, election, identifier, report, selection

MOST = 1.2
# So many keys, for 128 and 256 places. That of a selection with a label takes more instructions by itself.
COUNT, LABELS = 1152, 2304
FIXED = {"no salt": [], "a salt of zeros": [0, 0], "the salt of 1 and 2": [1, 2], "the salt of nothing": colliding.salt_of({"Election": []})}
SALTED = "crates/erd_rows/src/tests/salts.rt"
# Groups of places that an index of the numbers of names would have, and contests that repeat the names of the first.
PLACES, CONTESTS = 256, 16
NUMBERED = "numbers of names that crowd an index without a salt"
SMALL_BALLOT = "examples/small-ballot.json"


def units(ids):
    return hostile_shapes.units_named(ids)


def persons(values):
    made = hostile_shapes.report_of(hostile_shapes.ONE)
    made["Person"] = [{"@id": "p%d" % i, "@type": CLASS + "Person", "ExternalIdentifier": [identifier(each)]} for i, each in enumerate(values)]
    return made


def elections(values):
    made = [election("u0", ExternalIdentifier=[identifier(each)]) for each in values]
    return {**report(hostile_shapes.ONE, "u0"), "Election": made}


def write_ins(orders):
    chosen = [selection("s%d" % i, "CandidateSelection", IsWriteIn=True, SequenceOrder=colliding.order_of(each)) for i, each in enumerate(orders)]
    return hostile_shapes.report_of(hostile_shapes.ONE, Contest=[hostile_shapes.contest_of(chosen)])


def measures(kind):
    return lambda digits: hostile_shapes.measures(kind, digits)


# For each index the report that has such keys, how it hashes them, how many there are, and the salts to try.
INDEXES = {"@ids": (units, colliding.ID, COUNT, FIXED), "keys": (persons, colliding.VALUE, COUNT, FIXED),
           "elections": (elections, colliding.VALUE, COUNT, FIXED), "orders": (write_ins, colliding.ORDER, COUNT, FIXED)}
INDEXES.update({kind: (measures(kind), colliding.label_key(hostile_shapes.YES, kind), LABELS, {}) for kind in colliding.KINDS})


# The index of the names of two reports, which `compare` has: the salts of both are joined.
INDEXES["compared names"] = (write_ins, colliding.NAME, COUNT, {"joined salts of zeros": colliding.joined([0, 0], [0, 0])})


def repeated_names(numbers):
    """A contest with four times as many write-ins as an index of these groups holds, and contests with those that have these numbers
    among them: the same names, in an order of their own."""
    names = [("a", range(36 * PLACES))] + [("b%d" % i, numbers) for i in range(CONTESTS)]
    chosen = [[selection("%s-%d" % (contest, each), "CandidateSelection", IsWriteIn=True, SequenceOrder=each) for each in orders] for contest, orders in names]
    return hostile_shapes.report_of(hostile_shapes.ONE, Contest=[contest("c%d" % i, "C%d" % i, "u0", each, "CandidateContest") for i, each in enumerate(chosen)])


def counted(index, made, folder):
    """The instructions of `check` on a report, or of `compare` on it and a copy with a blank more: equal bytes are judged once."""
    path, copy = os.path.join(folder, "report"), os.path.join(folder, "copy")
    text = json.dumps(made)
    for name, said in ((path, text), (copy, text + " ")):
        with open(name, "w", encoding="utf-8") as file:
            file.write(said)
    return instructions(["./erd", "compare", path, copy] if index in ("compared names", NUMBERED) else ["./erd", "check", path])


def over(ratio, case):
    return "%s: %.2f times the instructions of others" % (case, ratio), at_most(MOST, ratio)


def held(index, folder):
    """For each salt, whether the file that crowds this index under it takes no longer."""
    report_of, key, count, fixed = INDEXES[index]
    others = report_of(key.others(count))
    left_out = {} if index == "compared names" else {"a salt that leaves them out": colliding.salt_of(others, index)}
    least = functools.cache(lambda: counted(index, others, folder))
    for name, salt in {**fixed, **left_out}.items():
        case = "%s that crowd an index under %s" % (index, name)
        if is_wanted(case):
            ratio = counted(index, report_of(colliding.crowded(count, salt, key, is_tagged=True)), folder) / least()
            yield over(ratio, case)


def numbers_held(folder):
    """Whether names whose numbers crowd one end of an index that has no salt take no longer than others. Each name has the number of its
    place in the first contest."""
    if is_wanted(NUMBERED):
        crowded = sorted(sorted(range(36 * PLACES), key=lambda number: colliding.place_of(number, PLACES))[:9 * PLACES])
        least = counted(NUMBERED, repeated_names(range(0, 36 * PLACES, 4)), folder)
        ratio = counted(NUMBERED, repeated_names(crowded), folder) / least
        yield over(ratio, NUMBERED)


def are_salted():
    """Whether each index of the code hashes its keys under a salt."""
    bare = []
    for path in sorted(glob.glob("crates/*/src/**/*.rt", recursive=True)):
        with open(path, encoding="utf-8") as file:
            kinds = re.findall(r"\b(?:IndexMap|IndexSet|HashMap|HashSet)<(?!Salted<)[^;]*", file.read())
        bare += ["%s in %s" % (kind.split("\n")[0], path) for kind in kinds]
    return "each index has a salt", "; ".join(bare)


def is_wanted(case):
    wanted = os.environ.get("CASES", "").splitlines()
    return not wanted or case in wanted


def compared(left, right, folder):
    """The instructions of `compare` on two reports."""
    paths = [os.path.join(folder, name) for name in ("left", "right")]
    for path, made in zip(paths, (left, right)):
        with open(path, "w", encoding="utf-8") as file:
            json.dump(made, file)
    return instructions(["./erd", "compare", *paths], statuses=(1,))


def names_held(folder):
    """Whether names of the right report that crowd an index under the salt of the left one alone take no longer than others."""
    case = "compared names that crowd an index under the salt of the left report"
    if is_wanted(case):
        left = write_ins(colliding.NAME.others(1))
        crowded = colliding.crowded(COUNT, colliding.salt_of(left), colliding.NAME, is_tagged=True)
        ratio = compared(left, write_ins(crowded), folder) / compared(left, write_ins(colliding.NAME.others(COUNT)), folder)
        yield over(ratio, case)


def is_known_salt():
    """Whether the number that the test of the program has is that of the salt that is worked out here."""
    with open(SMALL_BALLOT, encoding="utf-8") as file:
        small = json.load(file)
    with open(SALTED, encoding="utf-8") as file:
        number = int(re.search(r"number\(&20u64\) == (\d+)", file.read()).group(1))
    wanted = colliding.salted(colliding.salt_of(small), [20])
    return "the salt of the small ballot", "" if number == wanted else "20 has the number %d, and here %d" % (number, wanted)


def cases(folder):
    for index in sys.argv[1:] or INDEXES:
        yield from held(index, folder)
    yield from numbers_held(folder)
    yield from names_held(folder)


if __name__ == "__main__":
    sys.exit(counted_cases(cases, "the files that crowd an index", [is_known_salt(), are_salted()]))
