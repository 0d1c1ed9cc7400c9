"""Writes reports with many objects, and what is to be answered for them, made from the rules of docs/PROFILE.md.

usage: many_objects.py FOLDER [MANY]

There are MANY objects of a kind, or 2,000, and a twentieth as many elections. For each NAME of a report FOLDER gets
NAME.json and its canonical form NAME.canonical. For each pair it gets NAME.left, NAME.right and the answer NAME.answer.
"""
import json
import os
import sys

from reports import candidate, contest, election, identifier, report, selection, style, unit

ENVELOPE = {
    "Format": "summary-contest", "GeneratedDate": "2000-01-01T00:00:00Z", "Issuer": "canonical",
    "IssuerAbbreviation": "canonical", "SequenceEnd": 1, "SequenceStart": 1, "VendorApplicationId": "canonical",
}
MANY = int(sys.argv[2]) if len(sys.argv) > 2 else 2000
# The values of the identifiers are LEAST to 9999.
LEAST = 10000 - MANY


def canonical(units, scope, **election):
    """The canonical bytes of a report whose parts are in canonical order. Texts here are ASCII and need no escape."""
    return json.dumps({**report(units, scope, **election), **ENVELOPE}, sort_keys=True, separators=(",", ":"))


def many_units():
    added = [unit("w%d" % j, "N%d" % (10000 - j)) for j in range(1, MANY + 1)]
    rising = [unit("gp%d" % n, "N%d" % (LEAST - 1 + n)) for n in range(1, MANY + 1)]
    last = "gp%d" % (MANY + 1)
    return [unit("u7", "U1")] + added, canonical(rising + [unit(last, "U1")], last)


def many_selections():
    falling = [candidate("k%d" % j, "K%d" % (10000 - j)) for j in range(1, MANY + 1)]
    rising = [candidate("ca%d" % n, "K%d" % (LEAST - 1 + n)) for n in range(1, MANY + 1)]
    given = [selection("s%d" % j, CandidateIds=["k%d" % j]) for j in range(1, MANY + 1)]
    wanted = [selection("cs1-%d" % n, CandidateIds=["ca%d" % n]) for n in range(1, MANY + 1)]
    left = report([unit("u7", "U1")], "u7", Candidate=falling, Contest=[contest("c", "C1", "u7", given)])
    return left, canonical([unit("gp1", "U1")], "gp1", Candidate=rising, Contest=[contest("co1", "C1", "gp1", wanted)])


def many_references():
    units = [unit("w%d" % j, "N%d" % (10000 - j)) for j in range(1, MANY + 1)]
    rising = [unit("gp%d" % n, "N%d" % (LEAST - 1 + n)) for n in range(1, MANY + 1)]
    given = style("S1", ["w%d" % (j * 7 % MANY + 1) for j in range(MANY)])
    wanted = style("S1", ["gp%d" % n for n in range(1, MANY + 1)])
    return report(units, "w1", BallotStyle=[given]), canonical(rising, "gp%d" % MANY, BallotStyle=[wanted])


def many_identifiers():
    values = ["U%d" % n for n in range(100, 600)]
    given, wanted = unit("u7", "U1"), unit("gp1", "U1")
    given["ExternalIdentifier"] = [identifier(value) for value in reversed(values)]
    wanted["ExternalIdentifier"] = [identifier(value) for value in values]
    return report([given], "u7"), canonical([wanted], "gp1")


def one_of_many(j, count, names):
    """One of many elections: a candidate, and a contest that names the candidate of the next one. Keys of elections and
    candidates fall, and those of contests are mixed; the numbers of both count the whole report."""
    district, contest_name, selection_name, candidate_name = names
    number, own, following = j * 7 % count + 1, count - j, count - (j + 1) % count
    chosen = selection(selection_name % number, CandidateIds=[candidate_name % following])
    held = contest(contest_name % number, "C%d" % (1000 + number), district, [chosen])
    standing = candidate(candidate_name % own, "K%d" % (1000 + own))
    return election(district, Contest=[held], Candidate=[standing], ExternalIdentifier=[identifier("E%d" % (9999 - j))])


def many_elections():
    count = max(MANY // 20, 2)
    given = report([unit("u7", "U1")], "u7")
    given["Election"] = [one_of_many(j, count, ("u7", "c%d", "s%d", "k%d")) for j in range(count)]
    wanted = {**report([unit("gp1", "U1")], "gp1"), **ENVELOPE}
    wanted["Election"] = [one_of_many(j, count, ("gp1", "co%d", "cs%d-1", "ca%d")) for j in reversed(range(count))]
    return given, json.dumps(wanted, sort_keys=True, separators=(",", ":"))


def pairs(units):
    """Pairs of reports with many units, and the first difference of each."""
    left = report(units, "u7")
    other_last = report([unit(u["@id"], "N9999x") if u["@id"] == "w1" else u for u in units], "u7")
    all_other = report(units[:1] + [unit(u["@id"], u["ExternalIdentifier"][0]["Value"].replace("N", "M")) for u in units[1:]], "u7")
    half = report([u for number, u in enumerate(units) if number % 2 == 0], "u7")
    only = 'unit ["local-level","","%s"]: only %s'
    return {
        "last_keys_differ": (left, other_last, only % ("N9999", "left")),
        "all_keys_differ": (left, all_other, only % ("M%d" % LEAST, "right")),
        "every_second_is_lacking": (left, half, only % ("N%d" % (LEAST + 1), "left")),
        "units_turned_round": (left, report(units[::-1], "u7"), "same"),
    }


def write(folder, name, text):
    with open(os.path.join(folder, name), "w", encoding="utf-8") as file:
        file.write(text if isinstance(text, str) else json.dumps(text))


def main():
    folder = sys.argv[1]
    units, form = many_units()
    reports = {
        "many_units": (report(units, "u7"), form),
        "many_units_turned_round": (report(units[::-1], "u7"), form),
        "many_selections": many_selections(),
        "many_references": many_references(),
        "many_identifiers": many_identifiers(),
        "many_elections": many_elections(),
    }
    for name, (given, wanted) in reports.items():
        write(folder, name + ".json", given)
        write(folder, name + ".canonical", wanted)
    for name, (left, right, answer) in pairs(units).items():
        write(folder, name + ".left", left)
        write(folder, name + ".right", right)
        write(folder, name + ".answer", answer + "\n")


main()
