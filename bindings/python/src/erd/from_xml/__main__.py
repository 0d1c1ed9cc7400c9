"""Writes the JSON form of a report in XML, and says what was not understood.

python -m erd.from_xml FILE > REPORT

The exit status is 0 if all was understood, 1 if something was not, 2 if FILE is no XML of the standard, 3 if a file cannot be read or
written or the words are wrong, and 4 if memory runs out.
"""

from __future__ import annotations

import argparse
import sys
from typing import List, Optional

from ..parsing import Done, Parser, Version
from ..repeats import visible
from ..streams import STANDARD_ERROR, STANDARD_OUTPUT, Input, Stop, read, status_of, write, write_text
from . import WORDS, Converted, NotXml, Told, convert

NOT_UNDERSTOOD, NOT_XML = 1, 2


def parser() -> argparse.ArgumentParser:
    """Returns the parser of the command line."""
    words = Parser(prog='python -m erd.from_xml', allow_abbrev=False, description=(
        'Writes the JSON form of a report in XML, version 1 or 2 of NIST SP 1500-100, or in JSON that was made from such XML. What is not '
        'understood is told on standard error, with its place. No proof covers this.'))
    words.add_argument('--version', action=Version)
    words.add_argument('file', metavar='FILE')
    return words


def line_of(told: Told) -> str:
    """Returns what was not understood as a line for a person."""
    where = told.place if told.line is None else f'{told.place} (line {told.line})'
    return visible(f'{where}: {told.words}')


def lines_of(found: Converted) -> List[str]:
    """Returns all that is said of a file."""
    more = found.all_told - len(found.told)
    return [*map(line_of, found.told), *([f'and {more} more'] if more else []), WORDS,
            f'SHA-256 before: {found.sha256_of_xml}', f'SHA-256 after:  {found.sha256_of_form}']


def run(arguments: Optional[List[str]]) -> int:
    """Runs the command line, and returns the exit status."""
    try:
        words = parser().parse_args(arguments)
    except Done:
        return 0
    with Input(words.file) as file:
        data = read(file.handle)
    try:
        found = convert(data)
    except NotXml as why:
        raise Stop(visible(f'not XML that is converted: {why}'), NOT_XML) from None
    write_text(STANDARD_ERROR, ''.join(f'{line}\n' for line in lines_of(found)))
    write(STANDARD_OUTPUT, found.form)
    return 0 if found.is_whole else NOT_UNDERSTOOD


def main(arguments: Optional[List[str]] = None) -> int:
    """Runs the command line, and returns the exit status."""
    return status_of(lambda: run(arguments))


if __name__ == '__main__':
    sys.exit(main())
