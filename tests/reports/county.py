"""Writes a report like those of a county's elections office: usage county.py STYLES VENDOR, to standard output. The two vendors, a
and b, write the same ballots with other `@id`s, other orders and other blanks. Styles have many units and list each selection, so
that there are 16 to 20 references a kB, as in real exports."""
import json
import random
import sys

from reports import candidate, contest, identifier, label, named, ordered_contest, report, selection, style, translation, unit

CONTESTS_OF_STYLE = 26
SELECTIONS = 4
PARTIES = ["Democratic", "Republican", "Libertarian", "Green", "Constitution", "Independent"]
ORDERED = ("OrderedContent", "OrderedContestSelectionIds")


def units_of(styles):
    """A county, its precincts, and districts of some twenty precincts each."""
    precincts = [unit("precinct-%d" % i, "P%05d" % i, Name="Precinct %d" % i) for i in range(2 * styles)]
    made = [unit("county", "C", Name="County", ComposingGpUnitIds=["precinct-%d" % i for i in range(2 * styles)]), *precincts]
    for number, first in enumerate(range(0, 2 * styles, 24)):
        parts = ["precinct-%d" % i for i in range(first, min(first + 24, 2 * styles))]
        made.append(unit("district-%d" % number, "D%05d" % number, Name="District %d" % number, ComposingGpUnitIds=parts))
    return made


def people_of(contests):
    return [named("Person", "person-%d" % i, "N%06d" % i, FullName="Candidate Number %d" % i, PartyId="party-%d" % (i % len(PARTIES)))
            for i in range(contests * SELECTIONS)]


def candidates_of(contests):
    return [candidate("candidate-%d" % i, "K%06d" % i, PersonId="person-%d" % i, PartyId="party-%d" % (i % len(PARTIES)))
            for i in range(contests * SELECTIONS)]


def contest_of(number, district):
    chosen = [selection("selection-%d-%d" % (number, i), CandidateIds=["candidate-%d" % (number * SELECTIONS + i)], SequenceOrder=i + 1)
              for i in range(SELECTIONS)]
    title = label([translation("Seat %d" % number), translation("Escaño %d" % number, "es")])
    return contest("contest-%d" % number, "R%05d" % number, district, chosen, BallotTitle=title)


def style_of(number, styles, contests, dice):
    first = dice.randrange(2 * styles)
    units = ["precinct-%d" % ((first + i) % (2 * styles)) for i in range(dice.randrange(4, min(60, 2 * styles)))]
    listed = [ordered_contest("contest-%d" % ((number + i) % contests), OrderedContestSelectionIds=[
        "selection-%d-%d" % ((number + i) % contests, (i + k) % SELECTIONS) for k in range(SELECTIONS)]) for i in range(CONTESTS_OF_STYLE)]
    return style("S%05d" % number, units, OrderedContent=listed)


def ballots(styles):
    dice = random.Random(styles)
    contests = max(CONTESTS_OF_STYLE, styles // 2)
    districts = (2 * styles + 23) // 24
    made = report(units_of(styles), "county", Candidate=candidates_of(contests),
                  Contest=[contest_of(i, "district-%d" % (i % districts)) for i in range(contests)],
                  BallotStyle=[style_of(i, styles, contests, dice) for i in range(styles)])
    made["Party"] = [named("Party", "party-%d" % i, name, Name=name) for i, name in enumerate(PARTIES)]
    made["Person"] = people_of(contests)
    made["ExternalIdentifier"] = [identifier("general-2026")]
    return made


def in_other_words(value, dice, name=""):
    """The same for vendor b: members and sets in other orders, and `@id`s and references after another rule."""
    if isinstance(value, dict):
        members = list(value.items())
        dice.shuffle(members)
        return {key: in_other_words(inner, dice, key) for key, inner in members}
    if isinstance(value, list):
        entries = [in_other_words(inner, dice, name) for inner in value]
        if name not in ORDERED:
            dice.shuffle(entries)
        return entries
    is_reference = name == "@id" or name.endswith(("Id", "Ids"))
    return "id." + value.replace("-", "_") if is_reference else value


def main():
    styles, vendor = int(sys.argv[1]), sys.argv[2]
    made = ballots(styles)
    if vendor == "b":
        made = in_other_words(made, random.Random(1))
    json.dump(made, sys.stdout, ensure_ascii=False, indent=1 if vendor == "a" else None, separators=(",", ":") if vendor == "b" else None)
    print()


if __name__ == "__main__":
    main()
