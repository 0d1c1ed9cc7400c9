"""Tries the steps that prepare an export, by the package for Python. One line a case that fails, and at the end the counts.

- The package has the words of docs/FIXES.md, and of the page.
- Each step alone mends a report that lacks only it, to one that means what mended.py says by hand; the same report rearranged is mended to
  one that means the same.
- Each raw example is accepted after the steps, and so is each rearrangement, which then means the same.
- What is told of a large report has a bound.

The package has the steps of the C library: ERD_LIBRARY names it, if it is not the one in out/portable. The verdicts are those of the
reference program.
"""
import json
import os
import pathlib
import platform
import random
import re
import sys

ROOT = pathlib.Path(__file__).resolve().parents[2]
EXAMPLES = ROOT / 'examples'
sys.path[:0] = [str(ROOT / folder) for folder in ('bindings/python/src', 'reference', 'tests/reports', 'tests/shared')]
sys.dont_write_bytecode = True
os.environ.setdefault('ERD_LIBRARY', str(ROOT / f'out/portable/linux-{platform.machine()}/liberd.so.0'))
import damages  # noqa: E402
import harder_exports  # noqa: E402
import mended  # noqa: E402
import small_reports  # noqa: E402
import erd_reference  # noqa: E402
from cases import tell_cases  # noqa: E402
from exports import rearranged  # noqa: E402
import vendor_exports  # noqa: E402
from erd.prepare import STEPS, Preparation  # noqa: E402

# Exports as vendors write them: those of the examples, and four more.
RAW = sorted(EXAMPLES.glob('*.raw.json'))
EXPORTS = {**{path.name: path.read_bytes() for path in RAW}, 'fusion-primary': vendor_exports.fusion_primary(),
           'two-elections': vendor_exports.two_elections(), 'large-county': vendor_exports.large_county(20), 'towns': harder_exports.towns()}
ALL = [step.name for step in STEPS]


def by_the_library(data, names, tells_others=False):
    """What the package for Python writes and tells, as plain data."""
    prepared, done = Preparation(data).prepare(names, tells_others=tells_others)
    return prepared, [it.told() for it in done]


def bytes_of(report):
    return json.dumps(report, ensure_ascii=False).encode()


def damaged_so(damage, file=damages.COUNTY):
    """The report, that of the county where none is named, with this damage."""
    report = json.loads((EXAMPLES / file).read_text(encoding='utf-8'))
    damage(report)
    return report


def judged(data):
    """The lines of the reference program for a report."""
    return erd_reference.answer_of(data, None)[1]


def compared(left, right):
    """What the reference program says of two reports."""
    (_, lines, left), (_, other_lines, right) = (erd_reference.answer_of(data, None) for data in (left, right))
    if left is None or right is None:
        return lines[:3] + other_lines[:3]
    return erd_reference.first_difference(left, right) or 'same'


def words():
    """docs/FIXES.md lists the steps, with the words of the packages."""
    page = (ROOT / 'docs' / 'FIXES.md').read_text(encoding='utf-8')
    rows = re.findall(r'^\| `([a-z-]+)` \| (removed|filled-in|visible|view) \| (.*) \| [^|]* \|$', page, re.M)
    yield 'the steps of docs/FIXES.md', [(step.name, step.group, step.does) for step in STEPS], rows
    texts = json.loads((ROOT / 'web' / 'texts.en.json').read_text(encoding='utf-8'))
    said = [(step.title, step.does, step.loses) for step in STEPS]
    yield 'the steps of the page', [tuple(texts[f'step.{step.name}{part}'] for part in ('', '.does', '.loses')) for step in STEPS], said


# ---- what the steps do


# Steps that fix no fault, but take out what only a comparison would tell.
NO_FAULT = ('empty-lists', 'unseen', 'false-flags', 'other-codes')


class Turning(random.Random):
    """Turns each set round in place of shuffling it."""

    def shuffle(self, x):
        x.reverse()


def laws_of_steps(dice):
    """Each step alone mends what lacks only it, and commutes with rearrangements."""
    for name, (file, damage) in damages.DAMAGES.items():
        report = damaged_so(damage, file)
        data = bytes_of(report)
        prepared, done = by_the_library(data, [name])
        yield f'{name}: its changes are told', [name], [it['step'] for it in done if it['count']]
        yield f'{name}: it mends', ['accepted'], judged(prepared)
        yield f'{name}: what it means then', 'same', compared(bytes_of(damaged_so(mended.MENDED.get(name, lambda report: None), file)), prepared)
        if name not in NO_FAULT:
            yield f'{name}: something was wrong', True, judged(data) != ['accepted']
        for number, other_dice in enumerate((dice, dice, Turning())):
            other, _ = by_the_library(bytes_of(rearranged(report, other_dice)), [name])
            yield f'{name}: rearrangement {number + 1}', 'same', compared(prepared, other)


def left_alone():
    """What a step leaves as it is, and tells."""
    for step, damage, why in damages.LEFT:
        data = bytes_of(damaged_so(damage))
        prepared, done = by_the_library(data, [step])
        yield f'{step}: left, {why}', (data, [step], [why]), (prepared, [it['step'] for it in done], sorted({left['why'] for it in done for left in it['left']}))


def laws_of_examples(dice):
    for name, data in EXPORTS.items():
        yield f'{name}: refused', True, judged(data) != ['accepted']
        prepared, done = by_the_library(data, ALL)
        yield f'{name}: accepted', ['accepted'], judged(prepared)
        again, changed = by_the_library(prepared, ALL)
        yield f'{name}: nothing is left to do', (prepared, []), (again, [it['step'] for it in changed if it['count']])
        report = json.loads(data.decode('utf-8-sig'))
        for number in range(3):
            other, _ = by_the_library(bytes_of(rearranged(report, dice)), ALL)
            yield f'{name}: rearrangement {number + 1}', 'same', compared(prepared, other)
        yield f'{name}: the order of steps', prepared, by_the_library(data, ALL[::-1])[0]


def one_after_another():
    """All steps at once do what each does after those before it."""
    for name, data in EXPORTS.items():
        at_once, _ = by_the_library(data, ALL)
        for step in ALL:
            data, _ = by_the_library(data, [step])
        yield f'{name}: one step after another', json.loads(at_once), json.loads(data)


def small_ones():
    """Where a step has to decide, it tells what it does."""
    for name, (step, report) in small_reports.REPORTS.items():
        data = bytes_of(report)
        prepared, done = by_the_library(data, [step])
        yield f'{name}: what is told', [step] if prepared != data else [], [it['step'] for it in done if it['count']]


# ---- how much is told


# Reports of which a step tells more than is listed: many changes, and changes below one long name.
LONG = '{"@type":"ElectionResults.ElectionReport","%s":[%s]}' % ('n' * 40000, ','.join(['{"a":null}'] * 3000))
SHORT = '{"@type":"ElectionResults.ElectionReport","n":[%s]}' % ','.join(['{"a":null}'] * 3000)
MOST_BYTES_TOLD = 3_000_000


def bounds():
    """What is told of a report has a bound, and says that there is more."""
    for name, text, least, most in (('many changes', SHORT, 1000, 1000), ('places that are long', LONG, 20, 30)):
        told, = by_the_library(text.encode(), ['nulls'])[1]
        yield f'a report of {name}', (3000, True, True), (told['count'], least <= len(told['changes']) <= most, told['more'])
        yield f'the size of a report of {name}', True, len(json.dumps(told)) < MOST_BYTES_TOLD


def cases(seed):
    yield from words()
    yield 'each step is tried', sorted(ALL[1:]), sorted(damages.DAMAGES)
    dice = random.Random(seed)
    yield from laws_of_steps(dice)
    yield from left_alone()
    yield from laws_of_examples(dice)
    yield from one_after_another()
    yield from small_ones()
    yield from bounds()


if __name__ == '__main__':
    sys.exit(tell_cases(cases(int(*sys.argv[1:] or '1'))))
