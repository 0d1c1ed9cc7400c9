"""Measures the built program on reports that are meant to be slow (tests/reports/hostile_shapes.py), as the table of docs/MEASUREMENTS.md
has it.

For each shape and each command it counts the instructions at two sizes, one four times the other: how many times those of a read and
write of the left report they are at the larger size, and the power of the size with which they grew. Neither the machine nor other
work on it changes these. Beside them stand the seconds of processor time at twenty times the smaller size, without those of the
system: the least of some runs.

It tries the shapes of the page, or those that words name. With `--write` it puts their rows into the page, and the day once it has
tried all. SIZE is the number of entries at the smaller size, or a part of it where an entry is large: a report at twenty times the
size has a thousand elections. RUNS is how often each command runs. Needs valgrind, `./erd`, and `crates/round_trip` built.
"""
import datetime
import json
import math
import os
import pathlib
import re
import sys
import tempfile

from measuring import ROUND_TRIP, instructions, least_times
import hostile_shapes

PAGE = pathlib.Path("docs/MEASUREMENTS.md")
COMMANDS = ("check", "canon", "compare")
ROW = r"^\| `(%s)` \|(?: [^|]* \|){6}$"
DAY = r"^The table was measured on .*$"
# Some shapes are refused, and some pairs differ.
STATUSES = (0, 1)


def written(value, folder, name):
    path = os.path.join(folder, name)
    with open(path, "w", encoding="utf-8") as file:
        json.dump(value, file)
    return path


def runs_of(shape, n, folder):
    """The commands to measure on a shape, by their names, and the left report."""
    if shape in hostile_shapes.PAIRS:
        left, right = (written(side, folder, name) for side, name in zip(shape(n), ("left", "right")))
        return {"compare": ["./erd", "compare", left, right]}, left
    path, other = (written(shape(n), folder, name) for name in ("one", "other"))
    # two files with the same bytes are judged once
    with open(other, "a", encoding="utf-8") as file:
        file.write("\n")
    return {"check": ["./erd", "check", path], "canon": ["./erd", "canon", path], "compare": ["./erd", "compare", path, other]}, path


def counts(shape, n, folder):
    """The instructions of each command, and those of a read and write."""
    commands, left = runs_of(shape, n, folder)
    return {name: instructions(words, None, STATUSES) for name, words in commands.items()}, instructions([ROUND_TRIP], left)


def times(shape, n, folder, runs):
    """The seconds of each command."""
    commands, _ = runs_of(shape, n, folder)
    return least_times({name: (words, None) for name, words in commands.items()}, runs, STATUSES)


def row(shape, size, runs, folder):
    """The row of a shape. A pair of reports is compared alone."""
    (small, _), (large, unit) = counts(shape, size, folder), counts(shape, 4 * size, folder)
    grown = {name: math.log(large[name] / small[name]) / math.log(4) for name in large}
    seconds = times(shape, 20 * size, folder, runs)
    cells = ["%.1f, %.2f" % (large[name] / unit, grown[name]) if name in large else "-" for name in COMMANDS]
    cells += ["%.2f" % seconds[name] if name in seconds else "-" for name in COMMANDS]
    return "| `%s` | %s |" % (shape.__name__, " | ".join(cells))


def write(line, made):
    """Puts a line into the page, in the place of the one that looks so."""
    text, count = re.subn(line, made, PAGE.read_text(encoding="utf-8"), flags=re.M)
    if count != 1:
        sys.exit("%s has %d lines like %s" % (PAGE, count, line))
    PAGE.write_text(text, encoding="utf-8")


def main():
    size, runs = int(os.environ.get("SIZE", "1000")), int(os.environ.get("RUNS", "5"))
    words, is_written = set(sys.argv[1:]) - {"--write"}, "--write" in sys.argv
    shapes = [shape for shape in hostile_shapes.SINGLE + hostile_shapes.PAIRS if not words or shape.__name__ in words]
    listed = set(re.findall(ROW % r"\w+", PAGE.read_text(encoding="utf-8"), re.M))
    print("| Shape | `check` | `canon` | `compare` | `check`, s | `canon`, s | `compare`, s |")
    print("|---|---:|---:|---:|---:|---:|---:|")
    with tempfile.TemporaryDirectory() as folder:
        for shape in shapes:
            made = row(shape, size, runs, folder)
            print(made, flush=True)
            if is_written and shape.__name__ in listed:
                write(ROW % shape.__name__, made)
    if is_written and not words:
        write(DAY, "The table was measured on %s. The seconds are the least of %d runs." % (datetime.date.today(), runs))


main()
