"""A run over many files that was cut off goes on with --resume, after each kind of change."""

import json
import os

import pytest

from erd import many

FILES = [f'{number}.json' for number in range(6)]
CUT_AFTER = 3


class Runs:
    """Runs of erd.many in this process, over one folder, which may be cut off."""

    def __init__(self, folder, monkeypatch, capfd):
        self.folder, self.capfd = folder, capfd
        self.cut_after, self.judged = None, []
        monkeypatch.setattr(many, 'run_here', self.run_here)

    def run_here(self, jobs, judge_one, files, prefer):
        """Judges the files in order. The user ends the run after some of them."""
        for file in files:
            if len(self.judged) == self.cut_after:
                raise KeyboardInterrupt
            self.judged.append(os.path.basename(file))
            yield judge_one(file, prefer)

    def rows(self, *words, cut_after=None):
        """The rows of a run, by the names of their files; none if it was cut off. `judged` has the files that it read."""
        self.cut_after, self.judged = cut_after, []
        status = many.main(['--json', *words, str(self.folder)])
        out = self.capfd.readouterr().out
        assert (status == 130) == (cut_after is not None)
        return None if status == 130 else {os.path.basename(row['file']): row for row in json.loads(out)}


@pytest.fixture
def runs(top, tmp_path, monkeypatch, capfd):
    """A run over six files that was cut off after three of them."""
    monkeypatch.setenv('XDG_STATE_HOME', str(tmp_path / 'state'))
    folder = tmp_path / 'ballots'
    folder.mkdir()
    case = top / 'out' / 'conformance' / 'prefer-accepted-under-a-preference'
    for name in FILES:
        (folder / name).write_bytes((case / 'input.json').read_bytes())
    runs = Runs(folder, monkeypatch, capfd)
    runs.rows(cut_after=CUT_AFTER)
    assert runs.judged == FILES[:CUT_AFTER]
    return runs


def changed(old, new):
    """Changes a text in the first file."""
    def change(folder):
        report = (folder / FILES[0]).read_bytes()
        assert report.count(old) > 0
        (folder / FILES[0]).write_bytes(report.replace(old, new))
    return change


def replaced_at_the_old_time(folder):
    """Replaces the first file by one of its size and time."""
    before = (folder / FILES[0]).stat()
    (folder / 'new').write_bytes(b' ' * before.st_size)
    os.utime(folder / 'new', ns=(before.st_atime_ns, before.st_mtime_ns))
    (folder / 'new').replace(folder / FILES[0])


def removed(folder):
    """Takes the first file away."""
    (folder / FILES[0]).unlink()


def added(folder):
    """Puts another file in."""
    (folder / '7.json').write_bytes(b'{')


LEFT = FILES[CUT_AFTER:]
TYPE = ['--prefer', 'local-level']


@pytest.mark.parametrize('change, words, judged', [
    (None, [], LEFT),
    (changed(b'{', b'{ '), [], FILES[:1] + LEFT),
    (changed(b'pre-election', b'pro-election'), [], FILES[:1] + LEFT),
    (replaced_at_the_old_time, [], FILES[:1] + LEFT),
    (removed, [], LEFT),
    (added, [], LEFT + ['7.json']),
    (None, TYPE, FILES),
    (None, ['--pattern', '?.json'], FILES),
    (None, ['--prepare', 'visible'], FILES),
], ids=['none', 'another-size', 'the-same-size', 'the-same-time', 'removed', 'added', 'another-preference', 'another-pattern', 'other-steps'])
def test_change(runs, change, words, judged):
    if change is not None:
        change(runs.folder)
    found = runs.rows('--resume', *words)
    assert runs.judged == judged
    assert found == runs.rows(*words)


def test_another_version(runs, monkeypatch):
    monkeypatch.setattr('erd.journal.version', lambda: '9.9.9')
    assert len(runs.rows('--resume')) == len(FILES) and runs.judged == FILES


def test_a_file_that_changes_while_it_is_judged(runs, monkeypatch):
    real = many.run_here

    def run_here(jobs, judge_one, files, prefer):
        for row in real(jobs, judge_one, files, prefer):
            (runs.folder / os.path.basename(row.file)).write_bytes(b'{')
            yield row

    with monkeypatch.context() as patch:
        patch.setattr(many, 'run_here', run_here)
        runs.rows(cut_after=1)
    assert {row['verdict'] for row in runs.rows('--resume').values()} == {'not JSON', 'refused'}
    assert runs.judged == FILES


def test_without_resume_all_are_judged(runs):
    runs.rows()
    assert runs.judged == FILES


def test_a_whole_run_leaves_nothing_to_resume(runs):
    runs.rows('--resume')
    runs.rows('--resume')
    assert runs.judged == FILES


def test_no_memory_is_a_row_with_its_status(runs, monkeypatch):
    def canonical(*_, **__):
        raise MemoryError

    with monkeypatch.context() as patch:
        patch.setattr('erd.judging.canonical', canonical)
        assert {row['verdict'] for row in runs.rows().values()} == {'no memory'}
        assert many.main([str(runs.folder)]) == 4
