"""The commands of the program `erd` over the shared library: the same words, texts and exit statuses.

The library parses the words, as the program does. `python -m erd --version`, which writes the version of the library, is of this
package alone.
"""

from __future__ import annotations

import contextlib
import json
import sys
from typing import List, Optional, Tuple

from .ballots import BallotDifferences, ballot_difference_of, head_of
from .library import (ALL, GOOD, LINE_REQUEST, LINE_WRONG, Request, ballots_told, command_line, first_piece, pieces, version, whole)
from .listing import bytes_of_type
from .preparing import prepare_file
from .streams import STANDARD_ERROR, STANDARD_INPUT, STANDARD_OUTPUT, Input, read, status_of, write

# The call of each command.
CALLS = {
    'check': 'erd_check_piece',
    'canon': 'erd_canonical_piece',
    'compare': 'erd_compare_piece',
    'differences': 'erd_differences',
}

# The call that answers each command with JSON.
CALLS_FOR_JSON = {
    'check': 'erd_check_data_piece',
    'compare': 'erd_compare_data_piece',
    'differences': 'erd_differences_values',
}


def write_each(command: str, reports: Tuple[bytes, ...], prefer: Optional[str]) -> int:
    """Writes what the command writes, piece by piece, so that no list is in memory as a whole, and returns the exit status."""
    def written(text: memoryview, outcome: int) -> None:
        write(STANDARD_ERROR if command == 'canon' and outcome != GOOD else STANDARD_OUTPUT, text)

    status = GOOD
    for piece in pieces(CALLS[command], reports, bytes_of_type(prefer), ALL, written):
        status = piece.outcome
    return status


def write_json(command: str, reports: Tuple[bytes, ...], prefer: Optional[str]) -> int:
    """Writes what the command answers as JSON, with a line feed, and returns the exit status."""
    def written(text: memoryview, outcome: int) -> int:
        write(STANDARD_OUTPUT, text)
        write(STANDARD_OUTPUT, b'\n')
        return outcome

    return whole(CALLS_FOR_JSON[command], reports, bytes_of_type(prefer), written)


def write_ballots(reports: Tuple[bytes, ...], prefer: Optional[str], is_json: bool) -> int:
    """Writes the ballots of a report, or which ballots of two are not the same, and returns the exit status. Why a report is refused is
    written as for another command, so that no list is in memory as a whole."""
    kind = bytes_of_type(prefer)
    if any(first_piece('erd_check_piece', (report,), kind, 1, lambda *_: None).outcome != GOOD for report in reports):
        return (write_json if is_json else write_each)('check' if len(reports) == 1 else 'compare', reports, prefer)
    outcome, text = ballots_told('erd_ballots' if len(reports) == 1 else 'erd_ballot_differences', reports, kind)
    if is_json:
        write(STANDARD_OUTPUT, text + b'\n')
        return outcome
    told = json.loads(text)
    lines = [head_of(it).line for it in told] if len(reports) == 1 else BallotDifferences(tuple(map(ballot_difference_of, told))).lines
    write(STANDARD_OUTPUT, ''.join(f'{line}\n' for line in lines).encode('utf-8'))
    return outcome


def answer(request: Request) -> int:
    """Does what the command line asks for, and returns the exit status."""
    if request.command == 'filter':
        return write_each('canon', (read(STANDARD_INPUT),), None)
    if request.command == 'prepare':
        return prepare_file(request)
    with contextlib.ExitStack() as opened:
        files = [opened.enter_context(Input(name)) for name in request.files]
        reports = tuple(read(file.handle) for file in files)
    prefer, is_json = request.options['prefer'], request.options['json']
    if request.command == 'ballots':
        return write_ballots(reports, prefer, is_json)
    return (write_json if is_json else write_each)(request.command, reports, prefer)


def run(words: List[str]) -> int:
    """Runs the command line, and returns the exit status."""
    if words == ['--version']:
        write(STANDARD_OUTPUT, f'erd {version()}\n'.encode('ascii'))
        return GOOD
    line, request = command_line(words)
    if line == LINE_REQUEST:
        return answer(request)
    write(STANDARD_ERROR if line == LINE_WRONG else STANDARD_OUTPUT, request.text)
    return line


def main(words: Optional[List[str]] = None) -> int:
    """Runs the command line, and returns the exit status. Where it ends early, says why."""
    return status_of(lambda: run(sys.argv[1:] if words is None else words))


if __name__ == '__main__':
    sys.exit(main())
