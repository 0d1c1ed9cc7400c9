"""Makes reports whose lines of faults are long: `long_lines.py REPORT FOLDER`. Each is the accepted report REPORT with one
more member, which has numbers that are not whole. The lines, or the JSON of `erd_check_data`, are longer than the room of the
first call, or just fit it. Beside each NAME.json stands that JSON as NAME.data."""
import json
import os
import sys

ROOM = 4096
LINE, DATA = "/: not a whole number\n", '[{"place":[""],"reason":4}]'


def write(folder, name, text):
    with open(os.path.join(folder, name), "w", encoding="utf-8") as file:
        file.write(text)


def written(folder, name, report, member, value):
    """The report with the member, and the faults of its numbers: of one number, or of each of a list."""
    places = [[member, at] for at in range(len(value))] if isinstance(value, list) else [[member]]
    write(folder, name + ".json", json.dumps({**report, member: value}))
    write(folder, name + ".data", json.dumps([{"place": place, "reason": 4} for place in places], separators=(",", ":")))


def main(path, folder):
    with open(path, encoding="utf-8") as file:
        report = json.load(file)
    written(folder, "hundred-lines", report, "NumbersThatAreNotWhole", [1.5] * 100)
    written(folder, "long-names", report, "N" * 1000, [1.5] * 100)
    for size in (ROOM - 1, ROOM, ROOM + 1):
        written(folder, f"lines-of-{size}-bytes", report, "N" * (size - len(LINE)), 1.5)
        written(folder, f"data-of-{size}-bytes", report, "N" * (size - len(DATA)), 1.5)


main(*sys.argv[1:])
