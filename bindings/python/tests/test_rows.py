"""What a run over many files shows of its rows, by the functions themselves: tables, the bar, the folder of the journal, and a cluster."""

import logging
import os
import sys
import types

import pytest

from erd import journal, judging, many, running, streams
from erd.judging import Row

SUM = 'ab' * 32
ROWS = [Row('a.json', 'accepted', sha256=SUM, group=1), Row('b.json', 'refused', faults=2, reasons=[2])]
TABLE = f"""\
file    verdict   faults  sha256 of the canonical form{' ' * 36}  group
a.json  accepted          {SUM}  1
b.json  refused   2

2 files, 1 accepted, in 1 group
1 file: reason 2 (missing member): steps that may fix it: class-names; otherwise ask the vendor: Write the member that is missing. The standard requires it.
"""


def test_the_table():
    assert many.table_of(ROWS) == TABLE
    assert many.table_of([]) == 'file  verdict  faults  sha256 of the canonical form  group\n\n0 files, 0 accepted, in 0 groups\n'
    assert many.table_of(ROWS[:1]).endswith('\n\n1 file, 1 accepted, in 1 group\n')


def test_the_table_of_copies():
    row = Row('a.json', 'accepted', sha256=SUM, group=1, prepared='nulls 2')
    assert many.table_of([row]).splitlines()[:2] == [
        f"file    verdict   faults  sha256 of the canonical form{' ' * 36}  group  prepared by", f'a.json  accepted          {SUM}  1      nulls 2']


def test_the_csv():
    assert many.csv_of(ROWS) == f'file,verdict,faults,sha256,group\na.json,accepted,0,{SUM},1\nb.json,refused,2,,\n'
    assert many.csv_of([Row('=a', '=b', prepared='nulls 2')]) == "file,verdict,faults,sha256,group,prepared\n'=a,'=b,0,,,nulls 2\n"


class Shown:
    """A terminal, or none."""

    def __init__(self, monkeypatch, is_terminal):
        self.texts = []
        monkeypatch.setattr(many, 'is_terminal', lambda handle: is_terminal and handle == 2)
        monkeypatch.setattr(many, 'write_text', lambda handle, text: self.texts.append((handle, text)))

    def bar_of(self, count):
        bar = many.Progress(count)
        for _ in range(count):
            bar.step()
        bar.end()
        return self.texts


def test_the_bar(monkeypatch):
    bars = ['#' * 13 + '.' * 27, '#' * 26 + '.' * 14, '#' * 40]
    assert Shown(monkeypatch, True).bar_of(3) == [*((2, f'\r[{bar}] {done} of 3') for done, bar in enumerate(bars, 1)), (2, '\r\x1b[K')]


def test_the_bar_is_drawn_when_it_has_grown(monkeypatch):
    # 0 to 1,000 thousandths, and the line that is cleared.
    assert len(Shown(monkeypatch, True).bar_of(5000)) == 1002


def test_no_bar_without_a_terminal(monkeypatch):
    assert Shown(monkeypatch, False).bar_of(3) == []


def test_the_bar_is_gone_before_the_table(monkeypatch, top, tmp_path):
    monkeypatch.setenv('XDG_STATE_HOME', str(tmp_path))
    shown = Shown(monkeypatch, True)
    assert many.main(['--jobs', '1', str(top / 'examples' / 'one-unit.json')]) == 0
    bar, cleared, (handle, table) = shown.texts
    assert (bar, cleared, handle) == ((2, f'\r[{"#" * 40}] 1 of 1'), (2, '\r\x1b[K'), 1)
    assert table.startswith('file ')


def test_the_bar_is_gone_where_a_run_is_cut_off(monkeypatch, top, tmp_path, capfd):
    def cut_off(*_):
        raise KeyboardInterrupt
    monkeypatch.setenv('XDG_STATE_HOME', str(tmp_path))
    monkeypatch.setattr(many, 'rows_of', cut_off)
    shown = Shown(monkeypatch, True)
    assert many.main([str(top / 'examples' / 'one-unit.json')]) == 130
    assert (shown.texts, capfd.readouterr().err) == ([(2, '\r\x1b[K')], 'cut off after 0 of 1 file; --resume goes on from there\n')


@pytest.mark.parametrize('platform, given, wanted', [
    ('linux', {'XDG_STATE_HOME': '/s', 'LOCALAPPDATA': '/l'}, '/s/erd'), ('linux', {}, '/h/.local/state/erd'),
    ('win32', {'XDG_STATE_HOME': '/s', 'LOCALAPPDATA': '/l'}, '/l/erd'), ('win32', {}, '/h/AppData/Local/erd')])
def test_the_folder_of_the_journal(monkeypatch, platform, given, wanted):
    monkeypatch.setattr(sys, 'platform', platform)
    monkeypatch.setenv('HOME', '/h')
    for name in ('XDG_STATE_HOME', 'LOCALAPPDATA'):
        monkeypatch.setenv(name, given.get(name, ''))
    assert str(journal.folder()) == wanted


@pytest.mark.parametrize('platform, variable', [('linux', 'XDG_STATE_HOME'), ('win32', 'LOCALAPPDATA')])
def test_a_journal_that_cannot_be_kept(monkeypatch, tmp_path, platform, variable):
    (tmp_path / 'file').touch()
    monkeypatch.setenv(variable, str(tmp_path / 'file'))
    monkeypatch.setattr(sys, 'platform', platform)
    monkeypatch.setattr(journal, 'version', lambda: '1.2.3')
    with pytest.raises(journal.Stop) as found:
        journal.Journal(['a'], None, '*.json', keeps=False)
    assert (str(found.value), found.value.status) == (
        f'the journal of the run cannot be kept in {tmp_path}/file/erd: let {variable} name a folder for it', 3)


def test_on_windows_files_are_opened_for_bytes(monkeypatch, tmp_path):
    """Otherwise a line end of two bytes would be read as one, and a control character as the end of the file."""
    binary, ways, real = 0x8000, [], os.open

    def opened(name, way, *mode):
        ways.append(way & binary)
        return real(name, way & ~binary, *mode)

    (tmp_path / 'a.json').write_bytes(b'{}')
    monkeypatch.setenv('XDG_STATE_HOME', str(tmp_path))
    monkeypatch.setattr(journal, 'version', lambda: '1.2.3')
    monkeypatch.setattr(os, 'O_BINARY', binary, raising=False)
    monkeypatch.setattr(os, 'open', opened)
    with streams.Input(str(tmp_path / 'a.json')):
        pass
    journal.Journal(['a'], None, '*.json', keeps=False).close()
    assert ways == [binary, binary]


def test_what_a_cluster_logs_is_no_output(caplog):
    def client(address):
        for name in loggers:
            logging.getLogger(name).error('nothing at %s', address)
        raise OSError

    loggers = ('distributed.comm', 'asyncio')
    for name in ('distributed', *loggers):
        logging.getLogger(name).setLevel(logging.NOTSET)
    with pytest.raises(streams.Stop):
        running.client_of(client, 'tcp://room:1')
    assert caplog.records == []


def test_an_error_is_a_row(monkeypatch, tmp_path):
    def canonical(*_, **__):
        raise RuntimeError('odd')

    (tmp_path / 'a').write_bytes(b'{}')
    monkeypatch.setattr(judging, 'canonical', canonical)
    row = judging.judge(str(tmp_path / 'a'), None)
    assert (row.verdict, row.status) == ('RuntimeError: odd', 3)


class Future:
    """What a cluster has done. A task of several files fails as a whole, and so does the file `lost`."""

    def __init__(self, function, words):
        judge, task, prefer = words
        self.status = 'error' if len(task) > 1 or task == ['lost'] else 'finished'
        self.rows = function(judge, task, prefer) if self.status == 'finished' else None
        self.released = False

    def result(self):
        return self.rows

    def exception(self):
        return OSError('gone')

    def release(self):
        self.released = True


class Cluster:
    """A cluster of one thread, in the place of the package distributed."""

    def __init__(self, address):
        assert address == 'tcp://room:1'
        self.keys, self.futures = [], []
        Cluster.last = self

    def __enter__(self):
        return self

    def __exit__(self, *_):
        self.closed = True

    def nthreads(self):
        return {'worker': 1}

    def submit(self, function, *words, key, pure):
        assert not pure
        self.keys.append(key)
        self.futures.append(Future(function, words))
        return self.futures[-1]


class Coming(list):
    """The futures, and those that are added."""

    add = list.append


def test_files_of_a_failed_task_are_judged_one_at_a_time(monkeypatch):
    monkeypatch.setitem(sys.modules, 'distributed', types.SimpleNamespace(Client=Cluster, as_completed=Coming))
    files = [*(f'{number:02}' for number in range(7)), 'lost']
    rows = list(running.run_on_cluster('tcp://room:1', lambda file, prefer: Row(file, prefer), files, 'fips'))
    assert sorted((row.file, row.verdict) for row in rows) == [*((file, 'fips') for file in files[:-1]), ('lost', 'OSError: gone')]
    # Two files a task at first, and then one.
    assert len(Cluster.last.keys) == len(set(Cluster.last.keys)) == 4 + 8
    assert Cluster.last.closed and all(future.released for future in Cluster.last.futures)


def test_a_cluster_without_its_package(monkeypatch):
    monkeypatch.setitem(sys.modules, 'distributed', None)
    with pytest.raises(running.Stop) as found:
        list(running.run_on_cluster('tcp://room:1', lambda *_: None, ['a'], None))
    assert str(found.value) == "--scheduler needs the package distributed: python -m pip install 'erd[cluster]' installs it"


def test_a_scheduler_that_does_not_answer():
    def client(_):
        raise OSError

    with pytest.raises(running.Stop) as found:
        running.client_of(client, 'tcp://\x1b:1')
    assert str(found.value) == 'no scheduler answers at tcp://\\u{1b}:1: OSError'
