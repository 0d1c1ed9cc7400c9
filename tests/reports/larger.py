"""Makes a larger report of a report: each object stands there many times, with names and keys of its own.

usage: larger.py COPIES FILE, to standard output
"""
import copy
import json
import sys

from reports import OF_ELECTIONS, OF_REPORTS, ids_in


def renamed(value, ids, ending):
    """The value, with the ending at each text that is an @id."""
    if isinstance(value, dict):
        return {name: renamed(inner, ids, ending) for name, inner in value.items()}
    if isinstance(value, list):
        return [renamed(inner, ids, ending) for inner in value]
    return value + ending if isinstance(value, str) and value in ids else value


def copied(entry, ids, number):
    """One more object, with names and keys of its own."""
    entry = renamed(copy.deepcopy(entry), ids, "." + str(number))
    for identifier in entry["ExternalIdentifier"]:
        identifier["Value"] += "." + str(number)
    return entry


def main():
    copies, name = int(sys.argv[1]), sys.argv[2]
    with open(name, encoding="utf-8") as file:
        report = json.load(file)
    ids = ids_in(report)
    for holder in (report, *report["Election"]):
        for family in OF_REPORTS + OF_ELECTIONS:
            entries = holder.get(family, [])
            more = [copied(entry, ids, number) for number in range(1, copies) for entry in entries]
            if more:
                holder[family] = entries + more
    json.dump(report, sys.stdout, ensure_ascii=False, indent=1)
    print()


main()
