"""The command `erd prepare`: what the program writes, by the calls of the library."""

from __future__ import annotations

import json
from typing import Dict, Iterable, Optional

from .library import ALL, BAD, GOOD, NOT_JSON, WRONG, Request, TooLong, pieces, prepared
from .listing import bytes_of_type
from .prepare.prepared import NUMBERS, STEPS, remedy_of
from .results import Check, check_of
from .streams import STANDARD_ERROR, STANDARD_OUTPUT, Input, Stop, read, write, write_text
from .tree import MARK, without_mark

# The steps of a command line that names none.
PLAIN_STEPS = 'removed'
MARK_LINE = 'byte order mark: taken off\n'
GROUPS = {step.name: step.group for step in STEPS}


def prepare_file(request: Request) -> int:
    """Does what the command line asks for, and returns the exit status."""
    options = request.options
    steps = b'' if options['list'] else (PLAIN_STEPS if options['steps'] is None else options['steps']).encode('utf-8')
    if prepared(b'{}', steps, False)[0] == WRONG:
        raise Stop('unknown step')
    with Input(request.files[0]) as file:
        data = read(file.handle)
    mark = MARK_LINE if data.startswith(MARK) else ''
    outcome, text = prepared(without_mark(data), steps, options['list'] or options['report'])
    if outcome == NOT_JSON:
        write_text(STANDARD_ERROR, f'{mark}not JSON\n')
        return NOT_JSON
    if outcome != GOOD:
        raise TooLong()
    told, _, copy = text.partition(b'\n')
    if options['report']:
        write(STANDARD_OUTPUT, told + b'\n')
        write_text(STANDARD_ERROR, mark)
        return GOOD
    if options['list']:
        write_text(STANDARD_OUTPUT, lines_of((step, f'{step["step"]} ({GROUPS[step["step"]]})') for step in json.loads(told) if step['step'] != NUMBERS))
        write_text(STANDARD_ERROR, mark)
        return GOOD
    write(STANDARD_OUTPUT, copy)
    write_text(STANDARD_ERROR, mark + lines_of((step, step['step']) for step in json.loads(told)))
    return judge(copy, options['prefer'])


def lines_of(steps: Iterable[tuple]) -> str:
    """Returns a line for each step, with what it is called: how much it changed, and how much it left."""
    return ''.join(f'{name}: {counted(step)}\n' for step, name in steps)


def counted(step: dict) -> str:
    """Returns how much a step changed and left."""
    counts = ((step['count'], 'changed'), (step['left_count'], 'left'))
    return ', '.join(f'{count} {what}' for count, what in counts if count)


def judge(copy: bytes, prefer: Optional[str]) -> int:
    """Judges the copy, which is written by now, and returns the exit status. If the copy is refused, writes why, and then a line for each
    reason: what may fix its faults."""
    def found(text: memoryview, _: int) -> Check:
        data = json.loads(bytes(text))
        return check_of(data, len(data))

    reasons: Dict[int, None] = {}
    for piece in pieces('erd_check_data_piece', (copy,), bytes_of_type(prefer), ALL, found):
        if piece.outcome == GOOD:
            return GOOD
        write_text(STANDARD_ERROR, ''.join(f'{line}\n' for line in piece.taken.lines))
        reasons.update((fault.reason, None) for fault in piece.taken.faults)
    write_text(STANDARD_ERROR, ''.join(f'{remedy_of(reason).line(reason)}\n' for reason in reasons))
    return BAD
