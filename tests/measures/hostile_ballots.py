"""Holds the commands that tell of ballots against reports whose ballots are meant to be slow: for each byte of its reports, a command
takes at most 1.3 times the instructions that it takes for a county of the same size. Of two counties one ballot differs or each, whichever
takes longer. Where a command takes more, the table says how many times, and why. No answer is longer than the reports that it is about,
unless the table says why. Needs valgrind and `./erd`. One line a case.

usage: hostile_ballots.py [BYTES], about so many of each report, or 120,000
"""
import json
import os
import subprocess
import sys

from measuring import at_most, counted_cases, instructions
import county
import hostile_shapes
from reports import contest, label, ordered_contest, selection, translation, unit

MOST = 1.3
BYTES = int(sys.argv[1]) if len(sys.argv) > 1 else 120_000
# The words of each command, and how many reports it reads.
COMMANDS = {"ballots": 1, "ballots of two": 2, "differences --json": 2, "compare": 2}
# The bytes of a ballot of a county, of a line, and of a style with one line.
BALLOT, LINE, STYLE = 8900, 63, 260
# The length of a choice, and how often a ballot lists it.
CHOICE, LISTED = 5000, 300


def election_of(contests, contents):
    """A report with these contests, and with a style for each list of lines."""
    styles = [hostile_shapes.style_of(number, lines) for number, lines in enumerate(contents)]
    return hostile_shapes.report_of(hostile_shapes.ONE, Contest=contests, BallotStyle=styles)


def of_two_contests(contents):
    """A report with the contests `a` and `b`, and with a style for each text, which names the contests that it lists."""
    contests = [contest(id, id, "u0", [selection("s" + id, IsWriteIn=True)]) for id in "ab"]
    lines = {id: ordered_contest(id) for id in "ab"}
    return election_of(contests, [[lines[id] for id in content] for content in contents])


def counties(count=None):
    """An honest county. On so many of its ballots, or on each, the right report has a contest less."""
    left, right = (county.ballots(max(BYTES // BALLOT, 13)) for _ in range(2))
    for style in right["Election"][0]["BallotStyle"][:count]:
        style["OrderedContent"].pop()
    return left, right


def listed_often():
    count = BYTES // LINE
    return of_two_contests(["a" * count]), of_two_contests(["a" * (count - 1) + "b"])


def all_replaced():
    count = BYTES // LINE
    return of_two_contests(["a" * count]), of_two_contests(["b" * count])


def listed_in_turn():
    count = BYTES // LINE // 2
    return of_two_contests(["ab" * count]), of_two_contests(["ba" * count])


def many_styles():
    count = BYTES // STYLE
    return of_two_contests(["a"] * count), of_two_contests(["a"] * (count - 1) + ["b"])


def many_differing_styles():
    count = BYTES // STYLE
    return of_two_contests(["a"] * count), of_two_contests(["b"] * count)


def measure_with(words, listed):
    """A report with a measure that has a title of these words, and two choices: one of these words, and `No`. A ballot lists them."""
    chosen = [selection(id, "BallotMeasureSelection", Selection=label([translation(text)])) for id, text in (("s", words), ("n", "No"))]
    measure = contest("a", "a", "u0", chosen, "BallotMeasureContest", BallotTitle=label([translation(words)]))
    return election_of([measure], [[ordered_contest("a", OrderedContestSelectionIds=listed)]])


def long_labels():
    return tuple(measure_with("W" * (BYTES // 2) + last, ["s", "n"]) for last in "xy")


def choice_listed_often():
    return tuple(measure_with("W" * CHOICE, ["s"] * LISTED + last) for last in (["s"], ["n"]))


# Each pair of reports, what it is, and how many times the instructions of a county a command may take where these are more than MOST; and, of
# an answer that may be longer than the reports, how many bytes it may have for each of theirs.
SHORT_LINES = "a line has a quarter of the bytes of one in a county, whose lines list selections"
SHORT_STYLES = "a style has 260 bytes, and in a county 8,900"
PRODUCT = "its name and its words are written wherever it is listed, which grows with the square of the size"
NAME_AND_RECORD = "the label of a choice stands in its name and in its record"
CASES = [
    (listed_often, "a style that lists one contest again and again", {"ballots of two": (1.8, SHORT_LINES)}),
    (all_replaced, "a style that lists one contest again and again, and another one in the right report", {}),
    (listed_in_turn, "a style that lists two contests in turn, which have changed places", {"ballots of two": (1.8, SHORT_LINES)}),
    (many_styles, "very many styles, of which one differs", {"ballots": (1.5, SHORT_STYLES)}),
    (many_differing_styles, "very many styles that differ", {"ballots": (1.5, SHORT_STYLES), "differences --json": (1.5, SHORT_STYLES)}),
    (long_labels, "a title and a choice of half the report", {"differences --json": (MOST, NAME_AND_RECORD, 1.5)}),
    (choice_listed_often, "a choice of %d bytes that a ballot lists %d times" % (CHOICE, LISTED), {"ballots of two": (4.2, PRODUCT)}),
]


class Measured:
    """What the commands take for a pair of reports."""

    def __init__(self, pair, folder):
        self.paths = [os.path.join(folder, name) for name in ("left", "right")]
        for path, made in zip(self.paths, pair):
            with open(path, "w", encoding="utf-8") as file:
                json.dump(made, file, ensure_ascii=False)

    def words(self, name):
        return ["./erd", *name.removesuffix(" of two").split(), *self.paths[:COMMANDS[name]]]

    def length(self, name):
        """The bytes of the reports that the command reads."""
        return sum(os.path.getsize(path) for path in self.paths[:COMMANDS[name]])

    def cost(self, name):
        """The instructions for each byte of the reports."""
        return instructions(self.words(name), statuses=(0, 1)) / self.length(name)

    def answer(self, name):
        """How many bytes the answer has for each byte of the reports."""
        return len(subprocess.run(self.words(name), capture_output=True, check=False).stdout) / self.length(name)


def costs(measured):
    return {name: measured.cost(name) for name in COMMANDS}


def cases(folder):
    """For each pair and each command, what is wrong: it takes more than it may, or its answer is longer than the reports."""
    one, each = (costs(Measured(pair, folder)) for pair in (counties(1), counties()))
    honest = {name: max(one[name], each[name]) for name in COMMANDS}
    for pair, what, more in CASES:
        measured = Measured(pair(), folder)
        for name in COMMANDS:
            most, why, longest = (*more.get(name, (MOST, "")), 1)[:3]
            ratio, length = measured.cost(name) / honest[name], measured.answer(name)
            told = "%s: %s takes %.2f times the instructions of a county, and answers with %.2f bytes for a byte" % (what, name, ratio, length)
            yield told + ("; " + why if why else ""), at_most(most, ratio) or at_most(longest, length)


if __name__ == "__main__":
    sys.exit(counted_cases(cases, "the reports whose ballots are meant to be slow"))
