"""Measures the built program on realistic reports of four sizes, and prints the tables of docs/LIMITS.md and
docs/MEASUREMENTS.md.

tests/reports/county.py makes the reports. Beside `erd` run a proved program that only reads the file by serde_json and writes it again,
the same in Rust with the original serde_json where Debian's package librust-serde-json-dev and cargo are there, `jq -S -c .` where
there is a jq, and Python's json. RUNS is how often each is run, in turn with the others; the median processor time counts.
"""
import math
import os
import shutil
import subprocess
import sys
import tempfile

from measuring import ROUND_TRIP, measured, original

STYLES = [100, 400, 1600, 6000]
PYTHON_ROUND_TRIP = """import json, sys
with open(sys.argv[1], encoding="utf-8") as file:
    report = json.load(file)
sys.stdout.write(json.dumps(report, sort_keys=True, ensure_ascii=False, separators=(",", ":")))"""


def report_of(styles, vendor, folder):
    """The path of a report with so many styles."""
    path = os.path.join(folder, vendor)
    with open(path, "wb") as file:
        subprocess.run([sys.executable, "tests/reports/county.py", str(styles), vendor], stdout=file, check=True)
    return path


def measure(styles, folder, runs, reader):
    """The size in bytes, and for each program its time and memory. The reader is the program of the original, or none."""
    left, right = report_of(styles, "a", folder), report_of(styles, "b", folder)
    commands = {"read and write": ([ROUND_TRIP], left)}
    if reader:
        commands["the original"] = ([reader], left)
    for words in (["check", left], ["canon", left], ["compare", left, right]):
        commands["erd " + words[0]] = (["./erd"] + words, None)
    if shutil.which("jq"):
        commands["jq -S -c ."] = (["jq", "-S", "-c", ".", left], None)
    commands["Python's json"] = ([sys.executable, "-c", PYTHON_ROUND_TRIP, left], None)
    found = measured(commands, runs)
    return os.path.getsize(left), found


def table(title, sizes, rows, number):
    """Prints one table: a row for each program, a column for each size."""
    print("| " + title + " | " + " | ".join("%.1f MB" % (size / 1e6) for size in sizes) + " |")
    print("|---|" + "---:|" * len(sizes))
    for name in rows[0]:
        print("| " + name + " | " + " | ".join(number(index, name) for index in range(len(sizes))) + " |")
    print()


def main():
    runs = int(os.environ.get("RUNS", "5"))
    sizes, rows = [], []
    with tempfile.TemporaryDirectory() as folder:
        reader = original(folder)
        for styles in STYLES:
            size, found = measure(styles, folder, runs, reader)
            sizes.append(size)
            rows.append(found)
    unit = "read and write"
    table("Time over read and write", sizes, rows, lambda i, name: "%.2f" % (rows[i][name][0] / rows[i][unit][0]))
    table("Peak memory over read and write", sizes, rows, lambda i, name: "%.2f" % (rows[i][name][1] / rows[i][unit][1]))
    table("Processor time, seconds", sizes, rows, lambda i, name: "%.2f" % rows[i][name][0])
    table("Peak memory, MiB", sizes, rows, lambda i, name: "%.0f" % rows[i][name][1])
    print("Exponent of growth of the time, from each size to the next, and from the first to the last:")
    for name in rows[0]:
        steps = [(i, i + 1) for i in range(len(sizes) - 1)] + [(0, len(sizes) - 1)]
        grown = [math.log(rows[b][name][0] / max(rows[a][name][0], 0.001)) / math.log(sizes[b] / sizes[a]) for a, b in steps]
        print("  " + name + ": " + ", ".join("%.2f" % exponent for exponent in grown))


main()
