"""The steps that prepare an export, as the package hands them on. tests/prepare/steps.py tries the steps themselves."""

import json
import subprocess
import sys

import pytest

import erd
from erd import prepare
from erd.library import prepared as prepared_by_library


@pytest.mark.parametrize('name', ['county-general', 'municipal', 'state-primary'])
def test_raw_examples(top, name):
    data = (top / 'examples' / f'{name}.raw.json').read_bytes()
    assert not erd.check(data).accepted
    prepared, done = prepare.prepare(data, prepare.steps_of('removed', 'filled-in', 'visible'))
    assert erd.check(prepared).accepted
    assert all(step.count and step.done for step in done)
    names = [step.name for step in prepare.STEPS]
    assert [step.name for step in done] == sorted((step.name for step in done), key=names.index)


def report(members):
    return ('{"@type":"ElectionResults.ElectionReport",' + members + '}').encode()


NULLS = report('"Notes":null,"~/":[{"b":1,"a":null}]')


def test_what_is_told():
    """Each change has its place in the report that was given, and the value before and after: here a member is gone."""
    prepared, done = prepare.prepare(NULLS, ['nulls'])
    assert prepared == b'{"@type":"ElectionResults.ElectionReport","~/":[{"b":1}]}'
    assert [change.place for change in done[0].made] == [('Notes',), ('~/', 0, 'a')]
    assert [step.told() for step in done] == [{
        'step': 'nulls', 'done': True, 'count': 2, 'left_count': 0, 'left': [], 'more': False,
        'changes': [{'pointer': '/Notes', 'before': 'null', 'after': None}, {'pointer': '/~0~1/0/a', 'before': 'null', 'after': None}],
    }]


def test_what_is_left():
    data = report('"Party":[{"@type":"ElectionResults.Party","@id":"p"}]')
    prepared, done = prepare.prepare(data, ['names'])
    assert (prepared, [step.told()['left'] for step in done]) == (data, [[{'pointer': '/Party/0', 'why': 'noName'}]])
    assert (done[0].count, done[0].left_count, done[0].left[0].place) == (0, 1, ('Party', 0))


def test_the_same_steps_for_two_files(top):
    """Two exports of one vendor's report mean the same, once the same steps were done on both; one of them alone is refused."""
    report = json.loads((top / 'examples' / 'county-general.raw.json').read_text(encoding='utf-8-sig'))
    left, right = (json.dumps(it).encode() for it in (report, dict(reversed(report.items()))))
    names = prepare.steps_of('removed', 'filled-in')
    found = prepare.compare_prepared(left, right, iter(names))
    assert (found.comparison.lines, found.left, found.right) == (('same',), prepare.prepare(left, names)[0], prepare.prepare(right, names)[0])
    assert [step.name for step in found.left_done] == [step.name for step in found.right_done] == [step.name for step in prepare.prepare(left, names)[1]]
    refused = prepare.compare_prepared(left, right)
    assert (refused.comparison.refused, refused.comparison.same) == ('left', False)
    one_unit = (top / 'examples' / 'one-unit.json').read_bytes()
    assert prepare.compare_prepared(one_unit, right).comparison.refused == 'right'
    assert prepare.compare_prepared(one_unit.replace(b'Test', b'Other'), one_unit).comparison.lines == ('election: member "Name"',)


def test_the_same_steps_under_a_preference(top):
    """By the numbers of the state, two units have one key."""
    kinds = '},{"@type":"ElectionResults.ExternalIdentifier","Type":"state-level","Value":"7"}'
    unit = '{"@id":"u8","@type":"ElectionResults.ReportingUnit","Type":"precinct","ExternalIdentifier":[' \
        '{"@type":"ElectionResults.ExternalIdentifier","Type":"local-level","Value":"U2"' + kinds + ']},'
    text = (top / 'examples' / 'one-unit.json').read_text(encoding='utf-8')
    two = text.replace('"Value":"U1"}', '"Value":"U1"' + kinds).replace('{"@id":"u7"', unit + '{"@id":"u7"').encode()
    assert prepare.compare_prepared(two, two).comparison.same
    assert prepare.compare_prepared(two, two, prefer='state-level').comparison.lines == ('left: /GpUnit/1: identifier used twice',)


def test_what_to_do_about_a_fault_that_is_left():
    """For each reason there are steps that may fix it, or none, and a sentence for the vendor."""
    names = [step.name for step in prepare.STEPS]
    remedies = [prepare.remedy_of(reason) for reason in range(1, 19)]
    assert all(set(remedy.steps) <= set(names) and remedy.letter.endswith('.') for remedy in remedies)
    assert [number for number, remedy in enumerate(remedies, 1) if not remedy.steps] == [8, 9, 16, 17]


def test_numbers_that_are_written_in_another_way(monkeypatch):
    """They are told by line and column. A file that keeps its bytes keeps its numbers."""
    numbers = ('{"changes":[{"after":"1.5","before":"1.50","column":12,"line":3}],"count":1,"done":true,"left":[],"left_count":0,'
               '"more":false,"step":"numbers"}')
    nulls = ('{"changes":[{"before":null,"place":["a",0]},{"after":1.0,"before":"1","place":["b"]}],"count":2,"done":%s,"left":[],'
             '"left_count":0,"more":false,"step":"nulls"}')
    for done, names, copy in (('true', ['numbers', 'nulls'], b'{}'), ('false', ['nulls'], b'{"n":1.50}')):
        answer = f'[{numbers},{nulls % done}]\n{{}}'.encode()
        monkeypatch.setattr(prepare.prepared, 'prepared', lambda *_: (0, answer))
        prepared, told = prepare.Preparation(b'{"n":1.50}').prepare([], tells_others=True)
        assert (prepared, [step.name for step in told]) == (copy, names)
        assert told[-1].told()['changes'] == [{'pointer': '/a/0', 'before': 'null', 'after': None}, {'pointer': '/b', 'before': '"1"', 'after': '1.0'}]
        assert names[0] != 'numbers' or told[0].told() == {
            'step': 'numbers', 'done': True, 'count': 1, 'left_count': 0, 'left': [], 'more': False,
            'changes': [{'line': 3, 'column': 12, 'before': '1.50', 'after': '1.5'}]}


def test_numbers_that_the_library_writes_in_another_way():
    data = b'{"@type":"ElectionResults.ElectionReport",\n "n":[1.50,2],\n "m":18446744073709551616,"Notes":null}'
    copy, done = prepare.prepare(data, ['nulls'])
    assert copy == b'{"@type":"ElectionResults.ElectionReport","m":1.8446744073709552e+19,"n":[1.5,2]}'
    assert [step.name for step in done] == ['numbers', 'nulls']
    assert done[0].made == [(2, 7, '1.50', '1.5'), (3, 6, '18446744073709551616', '1.8446744073709552e+19')]
    assert prepare.prepare(MARK + b'{"a":1.0,"b":1E2,"Notes":null}', ['nulls'])[1][0].made == [(1, 14, '1E2', '100.0')]
    assert prepare.prepare(data, ['outside']) == (data, [])


def test_the_others_are_told():
    prepared, done = prepare.Preparation(NULLS).prepare([], tells_others=True)
    assert (prepared, [(step.name, step.done, step.count) for step in done]) == (NULLS, [('nulls', False, 2)])
    assert prepare.Preparation(NULLS).prepare([])[1] == []


def test_a_list_has_a_bound():
    data = report('"n":[' + ','.join(['{"a":null}'] * 3000) + ']')
    step = prepare.prepare(data, ['nulls'])[1][0]
    assert (step.count, len(step.made), step.more) == (3000, 1000, True)


def test_values_before_and_after():
    """Numbers are told as they are written."""
    data = report('"Election":[{"@type":"ElectionResults.Election","Contest":[{"@type":"ElectionResults.CandidateContest","VotesAllowed":"1",'
                  '"CountItemStatus":{"a":[1.5,true,"x"]}}]}]')
    step = next(step for step in prepare.Preparation(data).prepare(['kinds'])[1] if step.name == 'kinds')
    assert ('/Election/0/Contest/0/VotesAllowed', '"1"', '1') in [tuple(change.values()) for change in step.told()['changes']]


MARK = b'\xef\xbb\xbf'


def test_a_byte_order_mark():
    """It is the package that takes it away: the library takes bytes without a mark."""
    told = [{'step': 'byte-order-mark', 'done': True, 'count': 1, 'changes': [{'pointer': '', 'before': '"\ufeff"', 'after': None}],
             'left_count': 0, 'left': [], 'more': False}]
    twice = b'{"a":1,"a":2, "b":null}'
    prepared, done = prepare.prepare(MARK + twice, ['byte-order-mark'])
    assert (prepared, [step.told() for step in done]) == (twice, told)
    assert prepare.prepare(MARK + twice, ['nulls'])[0] == MARK + b'{"a":2}'
    assert prepare.prepare(MARK + twice, ['byte-order-mark', 'nulls'])[0] == b'{"a":2}'
    assert prepare.prepare(MARK + twice, []) == (MARK + twice, [])
    assert [(step.name, step.done) for step in prepare.Preparation(MARK + b'{}').prepare([], tells_others=True)[1]] == [('byte-order-mark', False)]


def test_a_file_of_which_nothing_changes_keeps_its_bytes(top):
    for path in sorted(set((top / 'examples').glob('*.json')) - set((top / 'examples').glob('*.raw.json'))):
        data = path.read_bytes()
        assert prepare.prepare(data, ['nulls', 'kinds', 'class-names', 'codes', 'write-in-lines', 'party-lines', 'repeated']) == (data, [])


def test_what_is_refused():
    for data in (b'{', b'', MARK, MARK + MARK + b'{}', b'\xff', b'[' * 200):
        with pytest.raises(prepare.NotJson):
            prepare.prepare(data)
    for names in (['nosuch'], ['removed'], ['nulls', ''], ['nulls,kinds'], ['numbers']):
        with pytest.raises(ValueError, match='no step has the name'):
            prepare.prepare(b'{}', names)
    with pytest.raises(erd.TooLong):
        prepare.prepare(b' ' * (2 ** 26 + 1))


def test_words_that_stand_for_steps():
    assert prepare.names_of('visible,nulls') == ['gone-candidates', 'unused-styles', 'nulls']
    assert prepare.names_of('removed') == prepare.steps_of('removed')
    for words in ('nosuch', '', 'nulls,', 'removed,Nulls'):
        with pytest.raises(ValueError, match='there is no step'):
            prepare.names_of(words)


def test_the_library_has_each_step():
    """It takes each name, and the groups are its own."""
    for step in prepare.STEPS:
        if step.name != 'byte-order-mark':
            assert prepared_by_library(b'{}', step.name.encode(), False)[0] == 0
    assert prepared_by_library(b'{}', b'byte-order-mark', False)[0] == 3


def run(*words):
    return subprocess.run([sys.executable, '-m', 'erd', 'prepare', *map(str, words)], capture_output=True, stdin=subprocess.DEVNULL)


@pytest.mark.parametrize('name', ['municipal', 'state-primary'])
@pytest.mark.parametrize('groups', [('removed',), ('removed', 'filled-in'), ('removed', 'filled-in', 'visible')])
def test_command(top, name, groups):
    """It writes the copy, says what each step did and which faults are left, and ends as the copy is judged."""
    path = top / 'examples' / f'{name}.raw.json'
    ran = run('--steps', ','.join(groups), path)
    prepared, done = prepare.prepare(path.read_bytes(), prepare.steps_of(*groups))
    left = erd.check(prepared, most_faults=None)
    assert (ran.returncode, ran.stdout) == (left.status, prepared)
    reasons = dict.fromkeys(fault.reason for fault in left.faults)
    assert ran.stderr.decode('utf-8').splitlines() == [f'{step.name}: {step.count} changed' for step in done] + [
        line for line in left.lines if not left.accepted] + [prepare.remedy_of(reason).line(reason) for reason in reasons]


def test_the_steps_of_a_plain_command(top):
    path = top / 'examples' / 'municipal.raw.json'
    assert run(path).stdout == prepare.prepare(path.read_bytes())[0]


TWO = report('"Notes":null,"Party":[{"@type":"ElectionResults.Party","@id":"p"},{"@type":"ElectionResults.Party","@id":"q","Name":"Q"}]')


def test_what_the_command_tells(tmp_path):
    path = tmp_path / 'two.json'
    path.write_bytes(TWO)
    ran = run('--steps', 'names,nulls', path)
    assert ran.stderr.decode().splitlines()[:2] == ['nulls: 1 changed', 'names: 1 changed, 1 left']
    assert (ran.returncode, json.loads(ran.stdout)['Party'][1]['ExternalIdentifier'][0]['Value']) == (1, 'Q')
    ran = run('--list', path)
    assert (ran.returncode, ran.stdout, ran.stderr) == (0, b'nulls (removed): 1 changed\nnames (filled-in): 1 changed, 1 left\n', b'')
    ran = run('--report', '--steps', 'nulls', path)
    assert (ran.returncode, ran.stderr, ran.stdout[-1:]) == (0, b'', b'\n')
    assert [(step['step'], step['done'], step['count'], step['left_count']) for step in json.loads(ran.stdout)] == [
        ('nulls', True, 1, 0), ('names', False, 1, 1)]


def test_a_command_that_does_nothing(tmp_path):
    path = tmp_path / 'file.json'
    path.write_bytes(b'{"b": 1, "a": 2}')
    for words, out in (((), b'{"a":2,"b":1}'), (('--steps', ''), None), (('--list',), b''), (('--report',), b'[]\n')):
        if out is not None:
            assert run(*words, path).stdout == out
    assert run(path).returncode == 1


def test_commands_that_are_refused(tmp_path):
    path = tmp_path / 'file.json'
    path.write_bytes(b'{')
    for words in ((), ('--list',), ('--report',)):
        ran = run(*words, path)
        assert (ran.returncode, ran.stdout, ran.stderr) == (2, b'', b'not JSON\n')
    for words in (('--steps', 'nosuch'), ('--steps', 'nulls,'), ('--report', '--steps', 'Nulls'), ('--steps', 'byte-order-mark')):
        for name in (path, tmp_path / 'nosuch'):
            ran = run(*words, name)
            assert (ran.returncode, ran.stdout, ran.stderr) == (3, b'', b'unknown step\n')
    ran = run(tmp_path / 'nosuch')
    assert (ran.returncode, ran.stdout, ran.stderr) == (3, b'', f'cannot open\n{tmp_path / "nosuch"}\n'.encode())


def test_commands_of_a_file_with_a_mark(tmp_path):
    """The mark is taken off, and told before all else."""
    path = tmp_path / 'marked.json'
    path.write_bytes(MARK + TWO)
    without = tmp_path / 'without.json'
    without.write_bytes(TWO)
    ran = run('--steps', 'nulls', path)
    assert (ran.returncode, ran.stdout) == (1, prepare.prepare(TWO, ['nulls'])[0])
    assert ran.stderr.startswith(b'byte order mark: taken off\nnulls: 1 changed\n: missing member Election\n')
    for words in (('--list',), ('--report',)):
        plain, marked = run(*words, without), run(*words, path)
        assert (marked.returncode, marked.stdout, marked.stderr) == (0, plain.stdout, b'byte order mark: taken off\n')
    path.write_bytes(MARK + b'{')
    for words in ((), ('--list',), ('--report',)):
        ran = run(*words, path)
        assert (ran.returncode, ran.stdout, ran.stderr) == (2, b'', b'byte order mark: taken off\nnot JSON\n')


USED_TWICE = (b'reason 13 (identifier used twice): steps that may fix it: town-codes, county-codes, shared-codes, write-in-candidates, codes; '
              b'otherwise ask the vendor: Give each object an identifier that no other object of its sort has. '
              b'Put the county, party or election in front of numbers that begin again.\n')


def test_command_with_a_preferred_type(tmp_path):
    """Two units have numbers of their own, and that of the state both."""
    units = [{'@type': 'ElectionResults.ReportingUnit', '@id': name, 'Type': 'precinct', 'ExternalIdentifier': [
        {'@type': 'ElectionResults.ExternalIdentifier', 'Type': kind, 'Value': value} for kind, value in (('local-level', name), ('state-level', '7'))
    ]} for name in ('U1', 'U2')]
    election = {'@type': 'ElectionResults.Election', 'Name': 'Test', 'Type': 'general', 'StartDate': '2026-11-03', 'EndDate': '2026-11-03',
                'ElectionScopeId': 'U1', 'Notes': None}
    path = tmp_path / 'units.json'
    path.write_text(json.dumps({'@type': 'ElectionResults.ElectionReport', 'Status': 'pre-election', 'GpUnit': units, 'Election': [election]}))
    for words, status, left in (([], 0, b''), (['--prefer', 'local-level'], 0, b''),
                                (['--prefer=state-level'], 1, b'/GpUnit/1: identifier used twice\n' + USED_TWICE)):
        ran = run(*words, path)
        assert (ran.returncode, ran.stderr.split(b'\n', 1)[1]) == (status, left)


def test_command_whose_library_is_missing(top, monkeypatch):
    monkeypatch.setenv('ERD_LIBRARY', '/no/such')
    path = top / 'examples' / 'one-unit.json'
    ran = run(path)
    assert (ran.returncode, ran.stdout) == (3, b'')
    assert ran.stderr.startswith(b'erd failed: OSError: ') and ran.stderr.count(b'\n') == 1


# Each reason that the library tells for what a step left, and a word that a reader finds in its sentence.
WHY_LEFT = {
    'counted': 'counts', 'requiredText': 'requires', 'twinIds': '@id', 'sharedNumber': 'number', 'namesObject': 'system name', 'nameTaken': 'new name',
    'someGone': 'candidates', 'noName': 'no name', 'noCounty': 'county', 'noTown': 'town', 'nothingTells': 'nothing',
}


def test_each_reason_for_what_is_left_has_words():
    assert {why: word for why, word in WHY_LEFT.items() if word in prepare.LEFT_WORDS.get(why, '')} == WHY_LEFT
    assert set(prepare.LEFT_WORDS) == set(WHY_LEFT)


def test_why_something_is_left_in_the_words_of_the_page(top):
    page = json.loads((top / 'web' / 'texts.en.json').read_text(encoding='utf-8'))
    assert prepare.LEFT_WORDS == {why: page[f'step.left.{why}'] for why in WHY_LEFT}
