"""Compares what the C library tells of ballots with the second opinion of reference/erd_ballots.py, on random pairs of reports: each byte and
outcome of `erd_ballots`, `erd_ballot` and `erd_ballot_differences`. Several rows of `erd_ballots_beside` can be right, so those that it
tells are checked (tests/library/ballot_rows.py), and `below` of `erd_ballot_differences` has to tell of the same rows.

usage: ballots_agree.py COUNT [SEED]

LIBRARY names the shared library, if it is not the one that is made of out/c/liberd.a here. Most reports are those of
tests/library/ballot_edits.py. At a difference it prints both reports and both answers. First it tries wrong answers, each of which has to
be noticed (tests/library/ballots_wrong.py), and each member alone.
"""
import collections
import json
import pathlib
import random
import sys
import tempfile

ROOT = pathlib.Path(__file__).resolve().parents[2]
sys.path[:0] = [str(ROOT / folder) for folder in ('reference', 'tests/program', 'tests/reports', 'tests/library')]
sys.dont_write_bytecode = True
import ballots_wrong  # noqa: E402
import erd_reference  # noqa: E402
from agrees_with_reference import EXAMPLES, HARMLESS, TYPES, edited, types_in, with_elections, written  # noqa: E402
from ballot_edits import Made, each_change, with_ballots  # noqa: E402
from ballot_rows import failure_of_beside  # noqa: E402
from erd_ballots import Ballots, TwoReports, compact_text  # noqa: E402
from by_ctypes import Library  # noqa: E402
from lists_agree import shared_library, with_selections  # noqa: E402

# A position that no report has.
NOWHERE = 2 ** 64 - 1


# ---- pairs


def some_base(bases, dice):
    """A new report, or now and then one of the examples."""
    return Made(dice).report() if dice.random() < 0.9 else with_elections(dice.choice(bases), dice)


def some_right(left, dice):
    """The left report with edits, of which some change no ballot."""
    right = with_ballots(left, dice, dice.choice([0, 1, 1, 2, 6]))
    if dice.random() < 0.3:
        right = with_selections(right, dice, 3)
    for edit in HARMLESS:
        if dice.random() < 0.4:
            edit(right, dice)
    return edited(right, dice, 2) if dice.random() < 0.1 else right


def pairs(bases, count, dice):
    """The bytes of two reports and a preference."""
    for _ in range(count):
        left = with_ballots(some_base(bases, dice), dice, 3)
        right = some_right(left, dice)
        prefer = dice.choice([None, None, dice.choice(TYPES), dice.choice(types_in(left) or TYPES)])
        yield [written(side, dice).encode() for side in (left, right)], prefer


# ---- the library


def there(name, answer, wanted):
    """What is wrong with an answer, or None. Its text has to be compact JSON with the members of objects in the order of their names."""
    wanted = wanted[0], compact_text(wanted[1])
    return None if answer == wanted else f'{name}:\n{answer}\nreference:\n{wanted}'


class Tried:
    """Two reports, and what the library tells of their ballots."""

    def __init__(self, library, reports, prefer):
        self.library, self.reports = library, reports
        self.prefer, self.taken = prefer, None if prefer is None else prefer.encode()
        self.sides = [None if resolved is None else Ballots(resolved) for _, _, resolved in (erd_reference.answer_of(it, prefer) for it in reports)]
        self.seen = collections.Counter()

    def answer(self, name, reports, *positions):
        return self.library.call(name, reports, self.taken, *positions)

    def failure(self, dice):
        """What is wrong, or None."""
        for report, side in zip(self.reports, self.sides):
            why = self.failure_of_report(report, side, dice)
            if why:
                return why
        if None in self.sides:
            return self.failure_of_refusal()
        return self.failure_of_differences() or self.failure_of_some_pairs(dice)

    # ---- one report

    def failure_of_report(self, report, side, dice):
        """What is wrong with the heads and the ballots of one report. A refused one has the text of a check."""
        if side is None:
            wanted = erd_reference.data_of('check', [report], self.prefer)
            answers = [self.answer('erd_ballots', [report]), self.answer('erd_ballot', [report], 0)]
            return None if answers == [wanted] * 2 else f'of a refused report: {answers}\nreference: {wanted}'
        why = there('erd_ballots', self.answer('erd_ballots', [report]), (0, side.heads()))
        count = len(side.styles)
        for position in [*dice.sample(range(count), min(count, 5)), count, NOWHERE]:
            why = why or there(f'erd_ballot {position}', self.answer('erd_ballot', [report], position), (0, side.ballot(position)))
        return why

    # ---- two reports

    def failure_of_refusal(self):
        self.seen['refused'] += 1
        wanted = erd_reference.data_of('compare', self.reports, self.prefer)
        answers = [self.answer('erd_ballot_differences', self.reports), self.answer('erd_ballots_beside', self.reports, 0, 0)]
        return None if answers == [wanted] * 2 else f'of refused reports: {answers}\nreference: {wanted}'

    def failure_of_differences(self):
        """What is wrong with the list of the styles whose ballots differ. Those of either report have to stand in its order of keys."""
        two = TwoReports(*self.sides)
        outcome, text = self.answer('erd_ballot_differences', self.reports)
        told, wanted = json.loads(text), two.differing()
        self.seen['different' if wanted else 'same'] += 1
        found = {tuple(entry['key']): (entry['left'], entry['right']) for entry in told}
        if outcome != (1 if wanted else 0) or found != wanted or len(told) != len(wanted) or compact_text(told) != text:
            return f'erd_ballot_differences:\n{outcome} {text}\nreference:\n{wanted}'
        for name in ('left', 'right'):
            keys = [entry['key'] for entry in told if entry[name] is not None]
            if keys != sorted(keys):
                return f'erd_ballot_differences: the {name} styles do not rise: {text}'
        return next(filter(None, (self.failure_of_style(two, entry) for entry in told)), None)

    def failure_of_style(self, two, entry):
        """What is wrong with what is told of a style: with its rows, or with the lines below it."""
        if set(entry) != {'below', 'key', 'left', 'right'}:
            return f'erd_ballot_differences: an entry has {sorted(entry)}'
        places = entry['left'], entry['right']
        if None in places:
            self.seen['style of one'] += 1
            return None if entry['below'] == '' else f'erd_ballot_differences: a style of one report has {entry["below"]!r} below'
        why = self.failure_of_pair(*places)
        if why:
            return why
        rows = json.loads(self.answer('erd_ballots_beside', self.reports, *places)[1])['rows']
        wanted = two.below(self.sides[0].style_at(places[0]), self.sides[1].style_at(places[1]), rows)
        for line in wanted.splitlines():
            self.seen[' '.join(line.split()[:2])] += 1
        return None if wanted and entry['below'] == wanted else f'below {entry["key"]}:\n{entry["below"]}\nreference:\n{wanted}'

    def failure_of_pair(self, at_left, at_right):
        """What is wrong with the ballots at two positions beside each other, whatever their keys."""
        left, right = self.sides
        one, other = left.style_at(at_left), right.style_at(at_right)
        outcome, text = self.answer('erd_ballots_beside', self.reports, at_left, at_right)
        told = json.loads(text)
        if outcome != 0 or compact_text(told) != text or (told is None) != (one is None or other is None):
            return f'erd_ballots_beside {at_left} {at_right}: {outcome} {text}'
        why = None if told is None else failure_of_beside(told, left, one, right, other)
        for row in (told or {'rows': []})['rows']:
            self.seen[f'row {row["how"]}'] += 1
        return why and f'erd_ballots_beside {at_left} {at_right}: {why}\n{text}'

    def failure_of_some_pairs(self, dice):
        """What is wrong with some ballots of either report, of other keys too, and with positions that a report has not."""
        counts = [len(side.styles) for side in self.sides]
        tried = [tuple(dice.randrange(count) for count in counts) for _ in range(2)] if all(counts) else []
        tried.append((dice.choice([0, counts[0], NOWHERE]), counts[1]))
        return next(filter(None, (self.failure_of_pair(*places) for places in [*tried, (NOWHERE, 0)])), None)


def failure_of_members(library):
    """What is wrong where a single member is another one, or None. The ballot is that of the report that has every member, and all get it."""
    whole = json.loads((ROOT / 'conformance' / 'cases' / 'bases' / 'every-member.json').read_text(encoding='utf-8'))
    for style in whole['Election'][0]['BallotStyle']:
        style.update(GpUnitIds=[it['@id'] for it in whole['GpUnit']], PartyIds=[it['@id'] for it in whole['Party']])
    whole['Election'][0]['Contest'][0]['ElectionDistrictId'] = whole['GpUnit'][0]['@id']
    seen = collections.Counter()
    for what, changed in each_change(whole):
        tried = Tried(library, [json.dumps(side).encode() for side in (whole, changed)], None)
        why = tried.failure_of_refusal() if None in tried.sides else tried.failure_of_differences()
        if why:
            return f'{what}: {why}'
        seen += tried.seen
    return None if seen['different'] > 100 and seen['same'] > 10 else f'too few: {seen}'


def main():
    count = int(sys.argv[1])
    seed = int(sys.argv[2]) if len(sys.argv) > 2 else random.randrange(10 ** 6)
    print(f'{count} random pairs, seed {seed}')
    bases = [json.loads((ROOT / 'examples' / f'{name}.json').read_text(encoding='utf-8')) for name in EXAMPLES]
    dice, seen = random.Random(seed), collections.Counter()
    with tempfile.TemporaryDirectory() as folder:
        library = Library(shared_library(folder))
        for what, why in [*ballots_wrong.tried(library, Tried), ('a single member', failure_of_members(library))]:
            if why:
                print(f'FAILED  {what}: {why}', '0 passed, 1 failed', sep='\n')
                return 1
        for reports, prefer in pairs(bases, count, dice):
            tried = Tried(library, reports, prefer)
            why = tried.failure(dice)
            seen += tried.seen
            if why:
                print(f'FAILED  preference {prefer}:', *reports, why, '0 passed, 1 failed', sep='\n')
                return 1
    print(', '.join(f'{what} {number}' for what, number in sorted(seen.items())))
    print('1 passed, 0 failed')
    return 0


if __name__ == '__main__':
    sys.exit(main())
