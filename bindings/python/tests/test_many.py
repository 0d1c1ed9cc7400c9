"""Many files at once: in processes, on a cluster, and cut off in the middle."""

import contextlib
import csv
import io
import json
import os
import signal
import subprocess
import sys
import time
from concurrent.futures.process import BrokenProcessPool

import pytest

from erd import many, running
from erd.judging import Row


@pytest.fixture
def ballots(top, tmp_path):
    """A folder with two files that define the same ballots, one that does not, and three that cannot be accepted."""
    folder = tmp_path / 'ballots'
    (folder / 'inner').mkdir(parents=True)
    a = (top / 'examples' / 'county.vendor-a.json').read_bytes()
    (folder / 'a.json').write_bytes(a)
    (folder / 'inner' / 'b.json').write_bytes((top / 'examples' / 'county.vendor-b.json').read_bytes())
    (folder / 'c.json').write_bytes(a.replace(b'Ingrith', b'Ingrid'))
    (folder / 'empty.json').write_bytes(b'')
    (folder / 'refused.json').write_bytes(b'{}')
    (folder / 'long.json').write_bytes(b' ' * 67108865)
    (folder / 'other.txt').write_bytes(a)
    return folder


@pytest.fixture
def run(tmp_path):
    """Runs erd.many with journals of its own."""
    def run(*words, before=(), text=True, **more):
        environment = {**os.environ, 'XDG_STATE_HOME': str(tmp_path / 'state')}
        return subprocess.run([*before, sys.executable, '-m', 'erd.many', *map(str, words)], capture_output=True, text=text,
                              env=environment, stdin=subprocess.DEVNULL, **more)
    return run


def rows_by_name(ran):
    """The rows of a run with --json, by the names of their files. No file has two."""
    rows = json.loads(ran.stdout)
    found = {os.path.basename(row['file']): row for row in rows}
    assert len(found) == len(rows)
    return found


def look_at(rows):
    """The rows are those of the folder of ballots."""
    assert {name: row['verdict'] for name, row in rows.items()} == {
        'a.json': 'accepted', 'b.json': 'accepted', 'c.json': 'accepted', 'empty.json': 'not JSON',
        'refused.json': 'refused', 'long.json': 'too long'}
    assert rows['a.json']['sha256'] == rows['b.json']['sha256'] != rows['c.json']['sha256']
    assert [rows[name]['group'] for name in ('a.json', 'b.json', 'c.json', 'empty.json')] == [1, 1, 2, None]
    assert (rows['refused.json']['faults'], rows['refused.json']['reasons'], rows['a.json']['reasons']) == (1, [2], [])


@pytest.mark.parametrize('jobs', [1, 3])
def test_groups(run, ballots, jobs):
    ran = run('--json', '--jobs', jobs, ballots)
    assert (ran.returncode, ran.stderr) == (3, '')
    look_at(rows_by_name(ran))


def test_sha256_is_that_of_the_canonical_form(run, top, ballots):
    import hashlib
    form = (top / 'examples' / 'county.canonical.json').read_bytes()
    rows = rows_by_name(run('--json', ballots / 'a.json'))
    assert rows['a.json']['sha256'] == hashlib.sha256(form).hexdigest()


WHAT_MAY_FIX = ('1 file: reason 2 (missing member): steps that may fix it: class-names; otherwise ask the vendor: Write the member that is missing. '
                'The standard requires it.\n')


def test_csv_and_table(run, ballots):
    rows = list(csv.DictReader(io.StringIO(run('--csv', ballots).stdout)))
    assert len(rows) == 6 and {row['verdict'] for row in rows} == {'accepted', 'not JSON', 'refused', 'too long'}
    table = run(ballots).stdout
    assert table.splitlines()[0].split() == ['file', 'verdict', 'faults', 'sha256', 'of', 'the', 'canonical', 'form', 'group']
    assert table.endswith('\n6 files, 3 accepted, in 2 groups\n' + WHAT_MAY_FIX)


def test_a_group_for_each_meaning(run, top, tmp_path):
    # Some of so many sums begin alike.
    report = (top / 'examples' / 'one-unit.json').read_bytes()
    folder = tmp_path / 'units'
    folder.mkdir()
    for number in range(40):
        (folder / f'{number:02}.json').write_bytes(report.replace(b'"U1"', b'"U%d"' % (number % 20)))
    rows = json.loads(run('--json', folder).stdout)
    assert [row['group'] for row in rows] == [number % 20 + 1 for number in range(40)]


@pytest.mark.parametrize('name', ['=1+1.json', '+1.json', '-1.json', '@x.json', '\t=1.json', '\n=1.json', '\uff1d1.json', '\uff0b1.json',
                                  '\uff0d1.json', '\uff20x.json'])
def test_no_name_is_a_formula(run, tmp_path, name):
    (tmp_path / name).write_bytes(b'{}')
    row, = csv.DictReader(io.StringIO(run('--csv', '--', name, cwd=tmp_path).stdout, newline=''))
    assert row['file'] == "'" + name


def test_names_of_files_do_not_paint_the_terminal(run, ballots):
    (ballots / 'x\x1b[31m\n.json').write_bytes(b'{}')
    assert '\x1b' not in run(ballots).stdout


@pytest.mark.parametrize(('pattern', 'names'), [
    ('a.json', ['a.json']), ('**/a.json', ['a.json']), ('**/**/b.json', ['b.json']), ('inner/*.json', ['b.json']), ('*.txt', ['other.txt'])])
def test_pattern(run, ballots, pattern, names):
    assert sorted(rows_by_name(run('--json', '--pattern', pattern, ballots))) == names


def test_a_pattern_is_for_names_below_the_folder(run, ballots):
    ran = run('--json', '--pattern', f'{ballots.name}/*.json', ballots)
    assert (ran.returncode, ran.stdout, ran.stderr) == (3, '', 'there is no file to judge\n')


@pytest.mark.parametrize(('words', 'wrong'), [
    ([], 'FOLDER'), (['--json', '--csv', '.'], '--csv'), (['--jobs', 'x', '.'], '--jobs'),
    (['--prefer', '', '.'], '--prefer: a value is required'), (['--pattern', '/etc/*', '.'], '--pattern'), (['--jobs', '0', '.'], '--jobs')],
    ids=['nothing', 'two-forms', 'no-number', 'empty-type', 'absolute-pattern', 'no-jobs'])
def test_usage(run, words, wrong):
    ran = run(*words)
    assert (ran.returncode, ran.stdout) == (3, '')
    told = ran.stderr.splitlines()[-1]
    assert told.startswith('python -m erd.many: ') and wrong in told


def test_what_cannot_be_read_is_a_row(run, ballots):
    (ballots / 'gone.json').symlink_to(ballots / 'nowhere')
    rows = rows_by_name(run('--json', ballots, ballots / 'gone.json'))
    assert rows['gone.json']['verdict'] == 'cannot open'


def test_only_regular_files_are_judged_and_the_others_are_named(run, ballots):
    os.mkfifo(ballots / 'pipe.json')
    (ballots / 'gone.json').symlink_to(ballots / 'nowhere')
    (ballots / 'folder.json').mkdir()
    ran = run('--json', ballots, ballots / 'pipe.json', timeout=60)
    rows = rows_by_name(ran)
    assert (rows['pipe.json']['verdict'], rows['gone.json']['verdict'], ran.returncode) == ('not a regular file', 'cannot open', 3)
    assert 'folder.json' not in rows and rows['a.json']['verdict'] == 'accepted'


def test_a_folder_that_cannot_be_listed_is_a_row(run, ballots):
    (ballots / 'inner').chmod(0)
    # Root may list every folder, so it gives that up.
    bare = ['setpriv', '--bounding-set=-dac_override,-dac_read_search', '--inh-caps=-dac_override,-dac_read_search'] if os.getuid() == 0 else []
    try:
        ran = run('--csv', ballots, before=bare)
    finally:
        (ballots / 'inner').chmod(0o700)
    assert f'{ballots}/inner,a folder that cannot be listed,0,,\n' in ran.stdout and ran.returncode == 3


@pytest.mark.parametrize('name', ['.', './', 'ballots', './ballots', 'ballots/', '../here/ballots//'])
def test_names_are_as_they_were_written(run, ballots, name):
    here = ballots.parent / 'here'
    here.mkdir()
    ballots.rename(here / 'ballots')
    top = here / 'ballots' if name.startswith('.') and 'ballots' not in name else here
    rows = json.loads(run('--json', name, cwd=top).stdout)
    assert {row['file'] for row in rows} == {os.path.join(name, it) for it in (
        'a.json', 'c.json', 'empty.json', 'inner/b.json', 'long.json', 'refused.json')}


@pytest.mark.parametrize('words', [['--csv'], ['--json'], []])
def test_a_reader_that_stops_needs_no_word(run, ballots, words):
    reader, writer = os.pipe()
    os.close(reader)
    ran = subprocess.run([sys.executable, '-m', 'erd.many', *words, str(ballots)], stdout=writer, stderr=subprocess.PIPE,
                         env={**os.environ, 'XDG_STATE_HOME': str(ballots.parent / 'state')})
    os.close(writer)
    assert (ran.returncode, ran.stderr) == (3, b'')
    assert list((ballots.parent / 'state' / 'erd').glob('*.jsonl')), 'what was judged is kept for --resume'


def test_a_name_that_is_no_text_stays_as_it_is(run, top, tmp_path):
    folder = tmp_path / 'odd'
    folder.mkdir()
    with open(os.path.join(os.fsencode(folder), b'\xff.json'), 'wb') as file:
        file.write((top / 'examples' / 'one-unit.json').read_bytes())
    ran = run('--csv', 'odd', cwd=tmp_path, text=False)
    assert ran.returncode == 0 and b'\nodd/\xff.json,accepted,' in ran.stdout


def test_a_process_that_ends_is_a_row(run, ballots, tmp_path, monkeypatch):
    # A process that the system stops, as for its memory, ends with no answer.
    (tmp_path / 'sitecustomize.py').write_text(
        'import erd, os\n'
        'real = erd.canonical\n'
        'def canonical(report, **more):\n'
        '    if report == b"": os._exit(9)\n'
        '    return real(report, **more)\n'
        'erd.canonical = canonical\n')
    monkeypatch.setenv('PYTHONPATH', os.pathsep.join([str(tmp_path), os.environ.get('PYTHONPATH', '')]))
    rows = rows_by_name(run('--json', '--jobs', 2, ballots))
    assert rows['empty.json']['verdict'] == 'the process ended'
    assert rows['a.json']['verdict'] == rows['c.json']['verdict'] == 'accepted'


def test_each_file_has_one_row_where_a_process_is_lost(monkeypatch):
    # A process is lost in the second of four tasks, when the rows of the first one have been given.
    files, runs = [f'{number:02}.json' for number in range(64)], []

    def in_turn(processes, under_way, jobs, judge, tasks, prefer):
        runs.append(list(tasks))
        for task in runs[-1]:
            if len(runs) == 1 and task == runs[0][1]:
                under_way[None] = task
                raise BrokenProcessPool
            yield [judge(file, prefer) for file in task]

    monkeypatch.setattr(running, 'pool', contextlib.nullcontext)
    monkeypatch.setattr(running, 'in_turn', in_turn)
    monkeypatch.setattr(running, 'alone', lambda judge, file, prefer: Row(file, 'alone'))
    rows = list(running.run_here(1, lambda file, prefer: Row(file, prefer), files, 'together'))
    assert [row.file for row in rows] == files
    assert [row.file for row in rows if row.verdict == 'alone'] == runs[0][1] == files[16:32]


def test_resume(run, top, tmp_path):
    folder = tmp_path / 'many'
    folder.mkdir()
    report = (top / 'examples' / 'one-unit.json').read_bytes()
    for number in range(300):
        (folder / f'{number}.json').write_bytes(report)
    # The run and its processes are cut off in the row behind the hundredth: an empty line stands before the first.
    (tmp_path / 'sitecustomize.py').write_text(
        'import os, signal\n'
        'from erd.journal import Journal\n'
        'def write(journal, line, real=Journal.write, lines=[]):\n'
        '    lines.append(line)\n'
        '    real(journal, line if len(lines) < 102 else line[:40])\n'
        '    if len(lines) == 102: os.killpg(0, signal.SIGKILL)\n'
        'Journal.write = write\n')
    environment = {**os.environ, 'XDG_STATE_HOME': str(tmp_path / 'state'),
                   'PYTHONPATH': os.pathsep.join([str(tmp_path), os.environ.get('PYTHONPATH', '')])}
    words = [sys.executable, '-m', 'erd.many', '--json', '--jobs', '2', str(folder)]
    cut = subprocess.run(words, stdout=subprocess.DEVNULL, stderr=subprocess.DEVNULL, env=environment, start_new_session=True)
    state = tmp_path / 'state' / 'erd'
    assert (cut.returncode, sum(len(file.read_text().split('\n')) - 2 for file in state.glob('*.jsonl'))) == (-signal.SIGKILL, 100)
    (folder / '0.json').write_bytes(b'{')
    ran = run('--json', '--resume', '--jobs', 2, folder)
    rows = rows_by_name(ran)
    assert len(rows) == 300 and rows['0.json']['verdict'] == 'not JSON'
    assert sum(row['verdict'] == 'accepted' for row in rows.values()) == 299
    assert not list(state.glob('*.jsonl'))


def test_cluster(run, ballots, tmp_path):
    pytest.importorskip('distributed')
    started = []
    try:
        file = tmp_path / 'scheduler.json'
        options = ['--scheduler-file', str(file), '--no-dashboard']
        programs = [['distributed.cli.dask_scheduler', '--host', '127.0.0.1', '--port', '0']]
        programs += [['distributed.cli.dask_worker', '--nthreads', '1', '--host', '127.0.0.1']] * 2
        for program in programs:
            started.append(subprocess.Popen([sys.executable, '-m', *program, *options], cwd=tmp_path,
                                            stdout=subprocess.DEVNULL, stderr=subprocess.DEVNULL))
            deadline = time.time() + 120
            while not file.exists() and time.time() < deadline:
                time.sleep(0.1)
        address = json.loads(file.read_text())['address']
        ran = run('--json', '--scheduler', address, 'ballots', timeout=300, cwd=ballots.parent)
        look_at(rows_by_name(ran))
        assert {os.path.dirname(row['file']) for row in json.loads(ran.stdout)} == {'ballots', 'ballots/inner'}
        assert ran.stderr == ''
    finally:
        for it in started:
            it.terminate()
        for it in started:
            it.wait()


@pytest.fixture
def asked(tmp_path, monkeypatch):
    """What a cluster is asked for, whose workers are this process."""
    found = []

    def run_on_cluster(address, judge, files, prefer):
        found.append((address, prefer))
        return [judge(file, prefer) for file in files]

    monkeypatch.setenv('XDG_STATE_HOME', str(tmp_path))
    monkeypatch.setattr(many, 'run_on_cluster', run_on_cluster)
    return found


def test_the_workers_of_a_cluster_have_the_preference(top, asked, capfd):
    case = top / 'out' / 'conformance' / 'prefer-accepted-under-a-preference'
    prefer = (case / 'prefer').read_text('utf-8').rstrip('\n')
    status = many.main(['--json', '--scheduler', 'tcp://room:1', '--prefer', prefer, str(case / 'input.json')])
    row, = json.loads(capfd.readouterr().out)
    assert (status, asked, row['verdict']) == (0, [('tcp://room:1', prefer)], 'accepted')


def test_the_workers_of_a_cluster_do_the_steps(top, asked, capfd):
    export = str(top / 'examples' / 'state-primary.raw.json')
    status = many.main(['--json', '--scheduler', 'tcp://room:1', '--prepare', 'removed,filled-in', export])
    row, = json.loads(capfd.readouterr().out)
    assert (status, asked, row['verdict']) == (0, [('tcp://room:1', None)], 'accepted')
    assert row['prepared'].startswith('outside 18, coordinates 3, ')


def test_a_cluster_that_is_not_there(run, ballots):
    pytest.importorskip('distributed')
    ran = run('--json', '--scheduler', 'tcp://127.0.0.1:1', ballots, timeout=300)
    assert (ran.returncode, ran.stdout) == (3, '')
    assert ran.stderr == 'no scheduler answers at tcp://127.0.0.1:1: OSError\n'


def test_prepare(run, top, tmp_path):
    folder = tmp_path / 'exports'
    folder.mkdir()
    export = (top / 'examples' / 'state-primary.raw.json').read_bytes()
    (folder / 'export.json').write_bytes(export)
    (folder / 'again.json').write_bytes(export.replace(b'Adela Whitlock', b'Adele Whitlock'))
    (folder / 'broken.json').write_bytes(b'{')
    rows = rows_by_name(run('--json', folder))
    assert [rows[name]['verdict'] for name in ('export.json', 'again.json', 'broken.json')] == ['refused', 'refused', 'not JSON']
    assert 'prepared' not in rows['export.json']
    assert [rows[name]['reasons'] for name in ('export.json', 'again.json', 'broken.json')] == [[4, 5], [4, 5], []]
    rows = rows_by_name(run('--json', '--prepare', 'removed,filled-in', '--jobs', 2, folder))
    assert [rows[name]['verdict'] for name in ('export.json', 'again.json', 'broken.json')] == ['accepted', 'accepted', 'not JSON']
    assert [rows[name]['group'] for name in ('again.json', 'export.json')] == [1, 2]
    assert rows['export.json']['prepared'].startswith('outside 18, coordinates 3, ')
    assert (folder / 'export.json').read_bytes() == export
    table = run('--prepare', 'outside', folder).stdout
    assert table.splitlines()[0].endswith('prepared by') and 'outside 18' in table
    assert '\n2 files: reason 4 (not a whole number): steps that may fix it: coordinates, whole-numbers; otherwise ask the vendor: ' in table
    rows = list(csv.DictReader(io.StringIO(run('--csv', '--prepare', 'outside', folder).stdout)))
    assert {row['prepared'] for row in rows} == {'outside 18', ''}
    assert run('--prepare', 'nosuch', folder).returncode == 3
