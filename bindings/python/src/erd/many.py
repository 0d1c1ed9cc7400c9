"""Judges many files at once, and groups those that mean the same.

python -m erd.many FOLDER.. [--json | --csv] [--prefer TYPE] [--prepare STEPS] [--jobs N] [--scheduler ADDRESS] [--resume]

Two accepted files mean the same if and only if their canonical forms are equal. So files of one group have one SHA-256
of their canonical forms. A file that cannot be judged is a row with its reason, and the run goes on.
"""

from __future__ import annotations

import argparse
import csv
import io
import json
import os
import sys
from collections import Counter
from functools import partial
from pathlib import PurePath
from typing import Dict, Iterable, Iterator, List, Optional

from .journal import Journal
from .judging import Row, judge
from .parsing import Done, Parser, Version, above_zero, names_of_steps, not_empty
from .prepare import remedy_of
from .repeats import visible
from .running import run_here, run_on_cluster
from .streams import (INTERRUPTED, STANDARD_ERROR, STANDARD_OUTPUT, ReaderGone, Stop, is_terminal, status_of, tell, write_text)


def files_below(names: Iterable[str], pattern: str) -> List[str]:
    """Returns the files that are named, and what fits the pattern below the folders that are named, each once, in order. Names begin
    as they were given. A folder that can't be listed is there too: it is a row of its own."""
    found = set()
    for name in names:
        if os.path.isdir(name):
            found.update(below(name, pattern))
        else:
            found.add(name)
    return sorted(found)


def below(top: str, pattern: str) -> Iterator[str]:
    """Gives what fits the pattern below a folder, but for folders, and each folder that can't be listed."""
    closed: List[str] = []
    for folder, _, files in os.walk(top, onerror=lambda error: closed.append(error.filename)):
        for file in files:
            path = os.path.join(folder, file)
            if PurePath(os.path.relpath(path, top)).match(pattern):
                yield path
    yield from closed


def grouped(rows: Iterable[Row]) -> List[Row]:
    """Returns the rows in the order of their files, with the groups numbered in this order."""
    ordered = sorted(rows, key=lambda row: row.file)
    groups: Dict[str, int] = {}
    for row in ordered:
        row.group = None if row.sha256 is None else groups.setdefault(row.sha256, len(groups) + 1)
    return ordered


def were_prepared(rows: List[Row]) -> bool:
    """Returns whether copies were judged, on which steps were done."""
    return any(row.prepared is not None for row in rows)


def table_of(rows: List[Row]) -> str:
    """Returns the rows as a table for a person, with no character that could change what a terminal shows."""
    heads = ['file', 'verdict', 'faults', 'sha256 of the canonical form', 'group', 'prepared by']
    lines = [[visible(row.file), visible(row.verdict), str(row.faults or ''), row.sha256 or '', str(row.group or ''), row.prepared or '']
             for row in rows]
    if not were_prepared(rows):
        heads, lines = heads[:-1], [line[:-1] for line in lines]
    widths = [max(map(len, column)) for column in zip(heads, *lines)]
    told = sum(row.group is not None for row in rows)
    groups = max((row.group or 0 for row in rows), default=0)
    return ''.join('  '.join(cell.ljust(width) for cell, width in zip(line, widths)).rstrip() + '\n' for line in (heads, *lines)) \
        + f'\n{counted(len(rows), "file")}, {told} accepted, in {counted(groups, "group")}\n' + remedies_of(rows)


def counted(count: int, word: str) -> str:
    """Returns the count with the word, which has an s but for one."""
    return f'{count} {word}' if count == 1 else f'{count} {word}s'


def remedies_of(rows: List[Row]) -> str:
    """Returns a line for each reason of faults: how many files have it, which steps may fix it, and what to ask the vendor for."""
    counts = Counter(reason for row in rows for reason in row.reasons)
    return ''.join(f'{counted(count, "file")}: {remedy_of(reason).line(reason)}\n' for reason, count in sorted(counts.items()))


def json_of(rows: List[Row]) -> str:
    """Returns the rows as a JSON array."""
    left_out = () if were_prepared(rows) else ('prepared',)
    return json.dumps([{name: value for name, value in vars(row).items() if name not in left_out} for row in rows], indent=1) + '\n'


# A spreadsheet takes a cell for a formula if it begins with one of these. Some read the full-width letters as the others, and look behind
# white space.
FORMULAS = ('=', '+', '-', '@', '\t', '\r', '\n', '\uff1d', '\uff0b', '\uff0d', '\uff20')


def no_formula(text: str) -> str:
    """Returns the text, with an apostrophe before it if a spreadsheet could take it for a formula."""
    return "'" + text if text.startswith(FORMULAS) else text


def csv_of(rows: List[Row]) -> str:
    """Returns the rows as CSV."""
    names = ['file', 'verdict', 'faults', 'sha256', 'group', *(['prepared'] if were_prepared(rows) else [])]
    out = io.StringIO()
    writer = csv.DictWriter(out, names, lineterminator='\n', extrasaction='ignore')
    writer.writeheader()
    writer.writerows({**vars(row), 'file': no_formula(row.file), 'verdict': no_formula(row.verdict)} for row in rows)
    return out.getvalue()


class Progress:
    """A progress bar on standard error, if that is a terminal."""

    WIDTH = 40

    def __init__(self, all_files: int) -> None:
        self.all_files, self.done, self.drawn = all_files, 0, -1
        self.is_shown = is_terminal(STANDARD_ERROR) and all_files > 0

    def step(self) -> None:
        """Counts one file, and draws the bar again if it has grown."""
        self.done += 1
        thousandths = 1000 * self.done // self.all_files
        if self.is_shown and thousandths != self.drawn:
            self.drawn = thousandths
            full = self.WIDTH * self.done // self.all_files
            write_text(STANDARD_ERROR, f'\r[{"#" * full}{"." * (self.WIDTH - full)}] {self.done} of {self.all_files}')

    def end(self) -> None:
        """Clears the line of the bar."""
        if self.is_shown:
            write_text(STANDARD_ERROR, '\r\x1b[K')


def pattern_of(text: str) -> str:
    """Returns the pattern, or refuses one that no name below a folder can fit. Folders in front of a name stand for any."""
    while text.startswith('**/'):
        text = text[len('**/'):]
    if not PurePath(text).parts or PurePath(text).anchor:
        raise argparse.ArgumentTypeError('a pattern for names below a folder is required, such as *.json')
    return text


def parser() -> argparse.ArgumentParser:
    """Returns the parser of the command line."""
    words = Parser(prog='python -m erd.many', allow_abbrev=False, description=(
        'Judges the files, and the *.json files below the folders, and groups those that mean the same. The exit status '
        'is the highest that erd check has for one of them.'))
    words.add_argument('names', nargs='+', metavar='FOLDER', help='a folder or a file')
    form = words.add_mutually_exclusive_group()
    form.add_argument('--json', dest='text_of', action='store_const', const=json_of, help='write a JSON array')
    form.add_argument('--csv', dest='text_of', action='store_const', const=csv_of, help='write CSV')
    words.add_argument('--prefer', metavar='TYPE', type=not_empty, help='the type of identifier that keys follow')
    words.add_argument('--prepare', metavar='STEPS', type=names_of_steps, default=[], help='judge a copy of each file on which these steps '
                       'of erd prepare were done: names of steps or of groups, with commas between them; the files stay as they are')
    words.add_argument('--pattern', default='*.json', type=pattern_of, help='which files of a folder are judged (default: %(default)s)')
    words.add_argument('--jobs', type=above_zero, default=os.cpu_count() or 1, metavar='N', help='how many processes (default: one a core)')
    words.add_argument('--scheduler', metavar='ADDRESS', help='run on the Dask cluster with this scheduler; its workers open the '
                       'files under the same paths, and have this package')
    words.add_argument('--resume', action='store_true', help='go on where the last run with these words was cut off')
    words.add_argument('--version', action=Version)
    words.set_defaults(text_of=table_of)
    return words


def rows_of(words: argparse.Namespace, files: List[str], journal: Journal) -> Iterator[Row]:
    """Gives a row for each file as it is known: first those that a run before has judged, then the others."""
    known: Dict[str, Row] = {}
    journal.look_at(files)
    if words.resume:
        known = {it['file']: Row(**it) for it in journal.rows()}
    yield from known.values()
    left = [it for it in files if it not in known]
    more = {'steps': tuple(words.prepare)} if words.prepare else {}
    if words.scheduler:
        rows = run_on_cluster(words.scheduler, partial(judge, folder=os.getcwd(), **more), left, words.prefer)
    else:
        rows = run_here(words.jobs, partial(judge, **more) if more else judge, left, words.prefer)
    for row in rows:
        journal.add(vars(row))
        yield row


def run(arguments: Optional[List[str]]) -> int:
    """Runs the command line, and returns the exit status. The journal goes when all is written."""
    try:
        words = parser().parse_args(arguments)
    except Done:
        return 0
    files = files_below(words.names, words.pattern)
    if not files:
        raise Stop('there is no file to judge')
    progress = Progress(len(files))
    rows = []
    with Journal(words.names, words.prefer, words.pattern, keeps=words.resume, steps=words.prepare) as journal:
        try:
            for row in rows_of(words, files, journal):
                rows.append(row)
                progress.step()
        except KeyboardInterrupt:
            progress.end()
            tell(f'cut off after {len(rows)} of {counted(len(files), "file")}; --resume goes on from there')
            return INTERRUPTED
        progress.end()
        try:
            write_text(STANDARD_OUTPUT, words.text_of(grouped(rows)))
        except ReaderGone as gone:
            return gone.status  # who reads no more needs no word
        journal.remove()
    return max(row.status for row in rows)


def main(arguments: Optional[List[str]] = None) -> int:
    """Runs the command line, and returns the exit status."""
    return status_of(lambda: run(arguments))


if __name__ == '__main__':
    sys.exit(main())
