"""Counts the instructions of each command on a county, over those of a read and write of the left report, and holds them against the
table of docs/MEASUREMENTS.md: a ratio that is more than 3 % above that of the page has failed. It counts the program of a release too,
where out/profiled/erd is there, and this has failed where all of its runs together take more than 98 % of those of `./erd`: a new
profile gains far more, but each change of the code takes something of that. Neither the machine nor other work on it changes these
counts.

With `--write` it puts the figures that it finds into the table, and with `--original` it counts those of the original serde_json too.
Needs valgrind, `./erd`, and `crates/round_trip` built. One line a case.
"""
import os
import pathlib
import re
import subprocess
import sys

from measuring import ROUND_TRIP, at_most, counted_cases, instructions, original

PAGE = pathlib.Path("docs/MEASUREMENTS.md")
PLAIN, RELEASED = "./erd", "out/profiled/erd"
STYLES = "100"
MOST, MOST_OF_PLAIN = 1.03, 0.98
UNIT = "`serde_json`, read and written"
ROW = r"^\| (?P<name>%s) \| (?P<count>[\d.]+) \| (?P<ratio>[\d.]+) \| (?P<released>[\d.]+) \| (?P<released_ratio>[\d.]+) \|$"

# What makes an accepted county a refused one: a text that stands in it, and what takes its place there.
FAULTS = {
    "an unresolved reference": ('"PartyId": "party-0"', '"PartyId": "nobody"'),
    "a fault of the shape": ('"VotesAllowed": 1', '"VotesAllowed": 1.5'),
    "a key twice": ('"Value": "P00001"', '"Value": "P00000"'),
}


def reports(folder):
    """The paths of the two vendors' reports."""
    paths = [os.path.join(folder, vendor) for vendor in "ab"]
    for vendor, path in zip("ab", paths):
        with open(path, "wb") as file:
            subprocess.run([sys.executable, "tests/reports/county.py", STYLES, vendor], stdout=file, check=True)
    return paths


def refused(accepted, fault):
    """The path of the report with this fault."""
    old, new = FAULTS[fault]
    text = pathlib.Path(accepted).read_text(encoding="utf-8")
    if old not in text:
        sys.exit("the county has no %s" % old)
    path = pathlib.Path(accepted + "." + old.split('"')[1])
    path.write_text(text.replace(old, new, 1), encoding="utf-8")
    return str(path)


def runs(folder):
    """The runs that are counted, by the name that each has on the page: the words after the program, and the exit status."""
    left, right = reports(folder)
    found = {"`erd check`": (["check", left], 0), "`erd canon`": (["canon", left], 0), "`erd compare`": (["compare", left, right], 0),
             "`erd compare`, a file with itself": (["compare", left, left], 0)}
    for fault in FAULTS:
        found["`erd check`, %s" % fault] = (["check", refused(left, fault)], 1)
    return found


def counted(folder, program):
    """The instructions of each run of the program."""
    return {name: instructions([program] + words, statuses=(status,)) for name, (words, status) in runs(folder).items()}


def row_of(name, text):
    row = re.search(ROW % re.escape(name), text, re.M)
    if row is None:
        sys.exit("%s has no row for %s" % (PAGE, name))
    return row


def write(unit, plain, released):
    text = PAGE.read_text(encoding="utf-8")
    for name, count in {UNIT: unit, **plain}.items():
        row = row_of(name, text)
        of_release = released.get(name, unit if name == UNIT else float(row["released"]) * 1e6)
        cells = "%.2f | %.3f | %.2f | %.3f" % (count / 1e6, count / unit, of_release / 1e6, of_release / unit)
        text = text[:row.start()] + "| %s | %s |" % (name, cells) + text[row.end():]
    PAGE.write_text(text, encoding="utf-8")


def held(unit, plain, released):
    """For each count, what is wrong with it."""
    text = PAGE.read_text(encoding="utf-8")
    for name, count in {UNIT: unit, **plain}.items():
        wanted = float(row_of(name, text)["ratio"])
        yield ("%s: %.2f million instructions, %.3f times those of a read and write; the page has %.3f" % (name, count / 1e6, count / unit, wanted),
               at_most(MOST, count / unit / wanted))
    for name, count in released.items():
        print("        %s, as released: %.2f million instructions, %.3f times those of a read and write, %.1f %% of those of ./erd"
              % (name, count / 1e6, count / unit, 100 * count / plain[name]))
    if released:
        part = sum(released.values()) / sum(plain.values())
        yield "the program of a release takes %.1f %% of the instructions of ./erd" % (100 * part), at_most(MOST_OF_PLAIN, part)


def cases(folder):
    unit = instructions([ROUND_TRIP], reports(folder)[0])
    plain = counted(folder, PLAIN)
    released = counted(folder, RELEASED) if os.path.exists(RELEASED) else {}
    reader = original(folder) if "--original" in sys.argv else None
    if reader:
        print("the original's read and write: %.3f" % (instructions([reader], os.path.join(folder, "a")) / unit))
    if not released:
        print("skipped the program of a release: there is no %s; make profiled makes it" % RELEASED)
    if "--write" in sys.argv:
        write(unit, plain, released)
    yield from held(unit, plain, released)


if __name__ == "__main__":
    sys.exit(counted_cases(cases, "the counts of instructions"))
