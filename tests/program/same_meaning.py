"""Holds `erd compare` against what it is to answer on random pairs of reports, and against another idea of when two reports
say the same (tests/program/meaning_by_search.py).

usage: same_meaning.py [COUNT [SEED]]

The left report of a pair is an example or a case of `conformance/` with random edits. The right one is the left one with
changes that count for nothing, or its canonical form: the answer is to be `same`. Or it has one small edit as well: the
answer is to be anything but `same`. Or it has edits at random, or is another report. COUNT pairs, or 2,000, have two accepted
reports; on each of them the two ideas have to agree. About half of them are compared under a preference. The other idea also
has to give the answers of `conformance/`. Each pair is a case.
"""
import copy
import json
import random
import subprocess
import sys
import tempfile

from agrees_with_reference import EXAMPLES, ROOT, by_erd, edited, types_in, with_elections
from cases import tell
from harmless_changes import CHANGES, EDITS, change_all, edit, exchange_members
from meaning_by_search import says_the_same

# The folders of the conformance cases, which conformance/make makes.
SUITE = ROOT / "out" / "conformance"
SAME, OTHER, ANY = "same", "not same", "any answer"
# What an answer begins with that does not go with its status.
STATUS = "status "
FAILURES_AT_MOST = 5
SMALL = [name for name in EXAMPLES if name != "county.vendor-a"]


def levels(value):
    inside = list(value.values()) if isinstance(value, dict) else value if isinstance(value, list) else None
    return 0 if inside is None else 1 + max(map(levels, inside), default=0)


def reports_to_start_from():
    """Lists of reports, one of which is drawn first: of the examples, and of the cases of `conformance/`. The county is large,
    and some cases are nested so deep that there is no room for a further level."""
    examples = {name: json.loads((ROOT / "examples" / f"{name}.json").read_text(encoding="utf-8")) for name in EXAMPLES}
    accepted = [path.parent for path in sorted(SUITE.glob("*/check.txt")) if path.read_text() == "accepted\n"]
    cases = [json.loads((case / "input.json").read_text(encoding="utf-8")) for case in accepted if not (case / "prefer").exists()]
    cases = [report for report in cases if levels(report) < 100]
    return [[examples[name] for name in SMALL]] * 20 + [cases] * 20 + [[examples["county.vendor-a"]]]


def is_accepted(report, folder):
    return by_erd("check", [json.dumps(report).encode()], None, folder)[0] == 0


def random_report(starts, dice, folder):
    """An accepted report, sometimes with further elections and some edits."""
    report = with_elections(dice.choice(dice.choice(starts)), dice)
    if not is_accepted(report, folder):
        return random_report(starts, dice, folder)
    if dice.random() < 0.5:
        change_all(report, dice)
    for _ in range(dice.randrange(4)):
        other = copy.deepcopy(report)
        edit(other, dice, dice.choice([*EDITS, "a carried value", "a carried value"]))
        report = other if is_accepted(other, folder) else report
    return report


# ---- pairs: the right report, or none if there is no such report


def changed_by(change):
    def right_of(left, dice, _):
        right = copy.deepcopy(left)
        change(right, dice)
        return right
    return right_of


def edited_by(kind):
    def right_of(left, dice, _):
        right = copy.deepcopy(left)
        if dice.random() < 0.5:
            change_all(right, dice)
        return right if edit(right, dice, kind) else None
    return right_of


def canonical_form(left, _, folder):
    status, out, _ = by_erd("canon", [json.dumps(left).encode()], None, folder)
    return json.loads(out) if status == 0 else None


# The kinds of pairs, each with what is to be answered. An unrelated report is the left one of earlier pairs.
PAIRS = {
    **{name: (changed_by(change), SAME) for name, change in CHANGES.items()},
    "all changes": (changed_by(change_all), SAME),
    "canonical form": (canonical_form, SAME),
    **{kind: (edited_by(kind), OTHER) for kind in EDITS},
    "two members exchanged": (changed_by(exchange_members), ANY),
    "edits at random": (lambda left, dice, _: edited(left, dice, 2), ANY),
    "unrelated": (None, ANY),
}
# So many pairs have one left report.
PAIRS_OF_ONE = 6


def pairs(dice, folder):
    """Pairs without end: the kind, both reports, and a preference."""
    starts, earlier = reports_to_start_from(), None
    while True:
        left = random_report(starts, dice, folder)
        for kind in dice.sample(list(PAIRS), PAIRS_OF_ONE):
            right = earlier if kind == "unrelated" else PAIRS[kind][0](left, dice, folder)
            if right is not None:
                yield kind, left, right, dice.choice([None, dice.choice(types_in(left) or [None])])
        earlier = left


# ---- answers


def answer_of(left, right, prefer, dice, folder):
    inputs = [json.dumps(report, ensure_ascii=dice.random() < 0.5).encode("utf-8") for report in (left, right)]
    status, out, err = by_erd("compare", inputs, prefer, folder)
    answer = out.decode("utf-8").removesuffix("\n")
    return answer if status == int(answer != SAME) and not err else f"{STATUS}{status}: {answer} {err}"


def failure_of(kind, left, right, answer):
    """What is wrong with the answer, if anything is."""
    wanted = PAIRS[kind][1]
    if answer.startswith(STATUS) or wanted != ANY and (answer == SAME) != (wanted == SAME):
        return f"is to be {wanted}"
    if not answer.startswith("right: ") and says_the_same(left, right) != (answer == SAME):
        return "differs from the other idea"
    return None


def conformance_failures():
    """The cases of `conformance/` with two accepted reports, each with what is wrong with the other idea there, if anything is."""
    for path in sorted(SUITE.glob("*/compare.txt")):
        answer = path.read_text(encoding="utf-8").removesuffix("\n")
        if not answer.startswith(("left: ", "right: ")):
            left, right = (json.loads((path.parent / name).read_text(encoding="utf-8")) for name in ("left.json", "right.json"))
            yield path.parent.name, says_the_same(left, right) != (answer == SAME)


def cases(count, seed):
    subprocess.run([ROOT / "conformance" / "make"], check=True)
    for name, is_wrong in conformance_failures():
        yield f"the other idea on conformance/{name}", "another answer" if is_wrong else ""
    dice, compared, failed = random.Random(seed), 0, 0
    told = {kind: {"the same": 0, "not": 0, "with the right one refused": 0} for kind in PAIRS}
    with tempfile.TemporaryDirectory() as folder:
        for kind, left, right, prefer in pairs(dice, folder):
            answer = answer_of(left, right, prefer, dice, folder)
            if answer.startswith("left: "):
                continue
            failure = failure_of(kind, left, right, answer)
            failed += bool(failure)
            yield f"{kind}, preference {prefer}", f"{answer!r} {failure}\n{json.dumps(left)}\n{json.dumps(right)}" if failure else ""
            is_refused = answer.startswith("right: ")
            told[kind]["with the right one refused" if is_refused else "the same" if answer == SAME else "not"] += 1
            compared += not is_refused
            if compared >= count or failed == FAILURES_AT_MOST:
                break
    for kind, numbers in told.items():
        print(f"{kind}: " + ", ".join(f"{number} {name}" for name, number in numbers.items() if number))


if __name__ == "__main__":
    numbers_given = [int(word) for word in sys.argv[1:]]
    sys.exit(tell(cases(*numbers_given, *(2000, 1729)[len(numbers_given):]), is_brief=True))
