"""The commands on the whole suite: `python -m erd` in this process, and `python -m erd.many` on all reports of one preference."""

import hashlib
import json
import os
import subprocess
import sys

import pytest

from erd.__main__ import main

VERDICTS = {'accepted\n': 'accepted', 'not JSON\n': 'not JSON'}
STATUSES = {'accepted\n': 0, 'same\n': 0, 'not JSON\n': 2, 'left: not JSON\n': 2, 'right: not JSON\n': 2}
MOST_BYTES = 67108864


@pytest.fixture
def run(capfdbinary):
    """Runs the command, and returns its status and what it wrote."""
    def run(*words):
        status = main(list(map(str, words)))
        out, err = capfdbinary.readouterr()
        return status, out.decode('utf-8'), err.decode('utf-8')
    return run


def text_of(file):
    """The text of a file; None if there is no such file."""
    return file.read_text('utf-8') if file.exists() else None


def preference(case):
    """The words of a case's preference; none if it has none."""
    line = text_of(case / 'prefer')
    return [] if line is None else ['--prefer', line.rstrip('\n')]


def test_command(run, case):
    lines = text_of(case / 'check.txt')
    if lines is None:
        lines = text_of(case / 'compare.txt')
        found = run('compare', *preference(case), case / 'left.json', case / 'right.json')
        assert found == (STATUSES.get(lines, 1), lines, '')
        status, out, err = run('differences', *preference(case), case / 'left.json', case / 'right.json')
        assert (status, err) == (found[0], '')
        assert out == (text_of(case / 'differences.txt') or out)
        assert out == lines if lines.startswith(('left: ', 'right: ', 'same')) else out.startswith(lines)
        return
    status = STATUSES.get(lines, 1)
    assert run('check', *preference(case), case / 'input.json') == (status, lines, '')
    form = text_of(case / 'canonical.json')
    wanted = (status, '', lines) if form is None else (0, form, '')
    assert run('canon', *preference(case), case / 'input.json') == wanted


# Each call of the library that a command makes, and the words of the command before its reports.
CALLS = [('command_line', ['check'], 1), ('pieces', ['check'], 1), ('pieces', ['compare'], 2),
         ('ballots_told', ['ballots'], 1), ('prepare_file', ['prepare'], 1), ('whole', ['check', '--json'], 1)]


@pytest.mark.parametrize('call, words, count', CALLS)
def test_no_memory(run, monkeypatch, top, call, words, count):
    def refused(*_given, **_named):
        raise MemoryError

    monkeypatch.setattr(f'erd.__main__.{call}', refused)
    assert run(*words, *[top / 'examples' / 'one-unit.json'] * count) == (4, '', 'no memory\n')


@pytest.mark.parametrize('size, wanted', [(MOST_BYTES, (2, 'not JSON\n', '')), (MOST_BYTES + 1, (3, '', 'too long\n'))])
def test_most_bytes(run, tmp_path, size, wanted):
    report = tmp_path / 'blanks'
    report.write_bytes(b' ' * size)
    assert run('check', report) == wanted


# Runs a program, and writes to a file the most memory that its process took, in kilobytes. What `wait4` says of a process has the
# memory of the one that began it, too.
MEASURED = """
import pathlib, re, runpy, sys
room, program, *words = sys.argv[1:]
sys.argv[1:] = words
try:
    if program == 'erd':
        runpy.run_module('erd', run_name='__main__')
    else:
        exec(program)
finally:
    said = pathlib.Path('/proc/self/status').read_text()
    pathlib.Path(room).write_text(re.search(r'VmHWM:\\s*(\\d+) kB', said)[1])
"""
CANONICAL = 'import erd; erd.canonical(open(sys.argv[1], "rb").read())'


@pytest.mark.skipif(not os.path.exists('/proc/self/status'), reason='the system does not say how much memory a process takes')
@pytest.mark.parametrize('program, words, status', [('erd', ['check'], 1), ('erd', ['canon'], 1), ('erd', ['compare'], 1),
                                                    ('erd', ['differences'], 1), (CANONICAL, [], 0)])
def test_a_square_list_takes_little_memory(tmp_path, program, words, status):
    report, room = tmp_path / 'square.json', tmp_path / 'room'
    report.write_text('{"@type":"ElectionResults.ElectionReport","Election":[],"' + 'n' * 25000 + '":[' + ','.join(['1.5'] * 6000) + ']}')
    files = [report] * (2 if words and words[0] in ('compare', 'differences') else 1)
    ended = subprocess.run([sys.executable, '-c', MEASURED, room, program, *words, *files], stdout=subprocess.DEVNULL)
    assert ended.returncode == status
    assert int(room.read_text()) < 100_000


def rows_of_suite(top):
    """For each preference of the suite the files that have it, each with the row that it must have."""
    rows = {}
    for case in sorted(path.parent for path in (top / 'out' / 'conformance').glob('prefer-*/check.txt')):
        lines, form = text_of(case / 'check.txt'), text_of(case / 'canonical.json')
        row = {
            'verdict': VERDICTS.get(lines, 'refused'),
            'faults': 0 if lines in VERDICTS else len(lines.splitlines()),
            'sha256': None if form is None else hashlib.sha256(form.encode('utf-8')).hexdigest(),
        }
        rows.setdefault(tuple(preference(case)), {})[str(case / 'input.json')] = row
    return rows


def test_many_under_each_preference(top, tmp_path, monkeypatch):
    monkeypatch.setenv('XDG_STATE_HOME', str(tmp_path))
    for words, wanted in rows_of_suite(top).items():
        ran = subprocess.run([sys.executable, '-m', 'erd.many', '--json', '--jobs', '1', *words, *wanted], capture_output=True)
        found = {row['file']: {name: row[name] for name in ('verdict', 'faults', 'sha256')} for row in json.loads(ran.stdout)}
        assert found == wanted, words
