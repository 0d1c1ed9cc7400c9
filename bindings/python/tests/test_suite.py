"""The conformance suite, by the calls and, for some cases, by the command."""

import json
import subprocess
import sys

import pytest

import erd


def preference(case):
    """The preferred type of a case, if it has one."""
    file = case / 'prefer'
    return file.read_text('utf-8').rstrip('\n') if file.exists() else None


def test_answers(case):
    prefer = preference(case)
    if (case / 'input.json').exists():
        report = (case / 'input.json').read_bytes()
        lines = (case / 'check.txt').read_text('utf-8')
        found = erd.check(report, prefer=prefer)
        assert found.text == lines
        assert (found.accepted, bool(found)) == (lines == 'accepted\n', lines == 'accepted\n')
        assert found.is_json == (lines != 'not JSON\n')
        form = erd.canonical(report, prefer=prefer)
        assert form.check == found
        assert (form.accepted, bool(form)) == (lines == 'accepted\n', lines == 'accepted\n')
        canonical = case / 'canonical.json'
        assert form.form == (canonical.read_bytes() if canonical.exists() else None)
    else:
        left, right = ((case / name).read_bytes() for name in ('left.json', 'right.json'))
        lines = (case / 'compare.txt').read_text('utf-8')
        found = erd.compare(left, right, prefer=prefer)
        assert found.text == lines
        assert (found.same, bool(found)) == (lines == 'same\n', lines == 'same\n')
        listed = erd.differences(left, right, prefer=prefer)
        entries = case / 'entries.json'
        if entries.exists() and listed.refused is None:
            assert list(map(data_of, listed.differences)) == json.loads(entries.read_text('utf-8'))


def data_of(difference):
    """The object that the library's JSON has for a difference."""
    data = {'part': difference.part, 'key': difference.key and list(difference.key), **way_of(difference)}
    if difference.selections is not None:
        data['selections'] = [{'name': json.loads(json.dumps(it.name)), **way_of(it), 'values': it.values} for it in difference.selections]
    if difference.values is not None:
        data['values'] = difference.values
    return data


def way_of(difference):
    """How two objects or two selections differ."""
    return {'how': difference.how, **({} if difference.member is None else {'member': difference.member})}


@pytest.mark.parametrize('name', ['one-unit.json', 'county.vendor-b.json', 'small-ballot.json'])
def test_commands(top, name):
    path = str(top / 'examples' / name)
    report = (top / 'examples' / name).read_bytes()

    def run(*words, given=b''):
        return subprocess.run([sys.executable, '-m', 'erd', *words], input=given, capture_output=True)

    form = erd.canonical(report).form
    filtered, canon, check = run(given=report), run('canon', path), run('check', path)
    compare = run('compare', '--prefer', 'local-level', path, path)
    assert (filtered.returncode, filtered.stdout, filtered.stderr) == (0, form, b'')
    assert (canon.returncode, canon.stdout, canon.stderr) == (0, form, b'')
    assert (check.returncode, check.stdout, check.stderr) == (0, b'accepted\n', b'')
    assert (compare.returncode, compare.stdout, compare.stderr) == (0, b'same\n', b'')


@pytest.mark.parametrize('words, status, told', [
    (['check', 'no such file'], 3, b'cannot open\nno such file\n'),
    (['check', '.'], 3, b'read failed\n'),
    (['compare', '.', 'no such\x1b[1m\x7f\u009b \u00e9'], 3, b'cannot open\nno such?[1m?? \xc3\xa9\n'),
    (['check'], 3, None),
    (['check', '--prefer', '', 'x'], 3, None),
    (['chek', 'x'], 3, None),
])
def test_statuses(words, status, told):
    ran = subprocess.run([sys.executable, '-m', 'erd', *words], capture_output=True, stdin=subprocess.DEVNULL)
    assert (ran.returncode, ran.stdout) == (status, b'')
    assert ran.stderr == told if told is not None else ran.stderr.startswith(b'error: ')


def test_refused_form():
    ran = subprocess.run([sys.executable, '-m', 'erd'], input=b'{', capture_output=True)
    assert (ran.returncode, ran.stdout, ran.stderr) == (2, b'', b'not JSON\n')
