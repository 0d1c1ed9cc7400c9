"""What the calls take and refuse, and what their results say."""

import dataclasses
import doctest
import importlib
import inspect
import json
import pkgutil
import threading
import typing

import pytest

import erd
from erd import repeats, results


def test_version(top):
    assert erd.version() == (top / 'VERSION').read_text('ascii').strip()


@pytest.mark.parametrize('name', ['erd', 'erd.streams', 'erd.prepare', 'erd.from_xml', 'erd.from_xml.born', 'erd.from_xml.reading', 'erd.from_xml.converting'])
def test_each_name_that_is_handed_on_is_there(name):
    module = importlib.import_module(name)
    assert [it for it in module.__all__ if not hasattr(module, it)] == []


def modules():
    """The modules of the package."""
    return [erd, *(importlib.import_module(it.name) for it in pkgutil.walk_packages(erd.__path__, 'erd.'))]


@pytest.mark.parametrize('module', modules(), ids=lambda it: it.__name__)
def test_annotations_name_what_is_there(module):
    for it in vars(module).values():
        if getattr(it, '__module__', None) == module.__name__ and (inspect.isclass(it) or inspect.isfunction(it)):
            for one in (it, *filter(inspect.isfunction, vars(it).values() if inspect.isclass(it) else ())):
                typing.get_type_hints(one)


def test_examples_in_the_comments():
    for module in (erd, results):
        assert doctest.testmod(module).failed == 0


@pytest.mark.parametrize('report', [None, 1, ['{}']])
def test_what_is_no_report(report):
    with pytest.raises(TypeError):
        erd.check(report)


@pytest.mark.parametrize('prefer, error', [(1, TypeError), (b'fips', TypeError), ('a\0b', ValueError), ('\ud800', ValueError)])
def test_what_is_no_type(prefer, error):
    with pytest.raises(error):
        erd.check('{}', prefer=prefer)


@pytest.mark.parametrize('call', [erd.check, erd.canonical, lambda report: erd.compare(report, '{}')])
def test_too_long(call):
    with pytest.raises(erd.TooLong):
        call(b' ' * 67108865)


def test_text_bytes_and_buffers_are_alike(top):
    data = (top / 'examples' / 'one-unit.json').read_bytes()
    forms = {erd.canonical(it).form for it in (data, data.decode('utf-8'), bytearray(data), memoryview(data))}
    assert len(forms) == 1 and None not in forms


@pytest.mark.parametrize('call', [erd.check, erd.canonical, lambda report: erd.compare('{}', report),
                                  lambda report: erd.differences(report, '{}'), erd.repeated_names, erd.ballots, erd.words, lambda report: erd.ballot(report, 0)])
def test_half_a_surrogate_pair_is_an_error_of_the_caller(call):
    with pytest.raises(ValueError, match='surrogate'):
        call('"\ud800"')


def test_a_zero_byte_does_not_end_a_report():
    assert erd.check(b'{}\0').status == 2


def test_results(top):
    left = (top / 'examples' / 'county.vendor-a.json').read_bytes()
    other = left.replace(b'Ingrith Sablewood', b'Ingrid Sablewood')
    same, differing = erd.compare(left, left), erd.compare(left, other)
    assert same and (same.status, same.outcome) == (0, 'same') and same.lines == ('same',)
    assert not differing and (differing.status, differing.outcome) == (1, 'different')
    assert differing.difference == erd.Difference('candidate', ('local-level', '', 'K-12'), 'member', 'BallotName')
    refused = erd.compare(left, b'{}')
    assert (refused.refused, refused.same, refused.status) == ('right', False, 1)
    assert refused.check.faults[0] == erd.Fault((), 2, '@type')
    assert (refused.outcome, erd.compare(b'{', left).outcome, erd.differences(left, other).outcome) == ('refused', 'not JSON', 'different')
    assert erd.compare(b'{', left).status == 2
    found = [(it.status, it.outcome) for call in (erd.check, erd.canonical) for it in map(call, (left, b'{}', b'{'))]
    assert found == [(0, 'accepted'), (1, 'refused'), (2, 'not JSON')] * 2


@pytest.mark.parametrize('call', [erd.check, erd.canonical, lambda report: erd.compare(report, '{'), lambda report: erd.differences(report, '{'),
                                  erd.ballots, lambda report: erd.ballot(report, 0), lambda report: erd.ballot_differences(report, '{'),
                                  lambda report: erd.ballots_beside(report, '{', 0, 0), erd.words])
def test_a_text_that_names_a_file_gets_a_hint(tmp_path, monkeypatch, recwarn, call):
    monkeypatch.chdir(tmp_path)
    (tmp_path / 'county.json').write_text('{}')
    (tmp_path / '5').write_text('{}')
    with pytest.warns(UserWarning, match="'county.json' is no JSON, and names a file") as found:
        call('county.json')
    assert [it.filename for it in found] == [__file__]
    for report in ('nosuch.json', '5', '{', b'county.json', 'county.json\0', 'x' * 5000):
        call(report)
    assert not recwarn.list


def many_faults(top, name):
    """A report with five thousand faults below a member of this name."""
    report = (top / 'examples' / 'one-unit.json').read_text('utf-8')
    return report.replace('{', f'{{"{name}":[' + ','.join(['1.5'] * 5000) + '],', 1)


def test_a_long_list_of_faults(top):
    found = erd.check(many_faults(top, 'Remarks'), most_faults=None)
    assert (len(found.faults), found.all_faults, found.more) == (5000, 5000, False)
    assert [fault.pointer for fault in found.faults] == [f'/Remarks/{at}' for at in range(5000)]


@pytest.mark.parametrize('faults_of', [
    lambda report, _: erd.check(report, most_faults=None).faults, lambda report, _: erd.canonical(report, most_faults=None).check.faults,
    lambda report, good: erd.compare(report, good, most_faults=None).check.faults,
    lambda report, good: erd.differences(good, report, most_differences=None).check.faults,
    lambda report, _: erd.words(report, most_entries=None).check.faults], ids=['check', 'canonical', 'compare', 'differences', 'words'])
def test_all_faults_where_each_is_a_piece_of_its_own(top, faults_of):
    good = (top / 'examples' / 'one-unit.json').read_text('utf-8')
    report = good.replace('{', '{"' + 'n' * 1_100_000 + '":[1.5,1.5,1.5],', 1)
    assert [fault.place[1] for fault in faults_of(report, good)] == [0, 1, 2]


def test_the_first_faults(top):
    report = many_faults(top, 'Remarks')
    found = erd.check(report)
    assert (len(found.faults), found.all_faults, found.more, found.status) == (1000, 5000, True, 1)
    assert found.faults[999].pointer == '/Remarks/999'
    form, right = erd.canonical(report, most_faults=2), erd.compare(report, report, most_faults=2)
    assert form.check == right.check and len(form.check.faults) == 2 and form.check.all_faults == 5000
    none = erd.check(report, most_faults=0)
    assert (none.faults, none.all_faults, none.accepted, none.lines) == ((), 5000, False, ())
    sides = erd.differences(report, report, most_differences=3)
    assert (len(sides.check.faults), sides.check.all_faults, sides.more, sides.status) == (3, 5000, True, 1)


def test_faults_with_long_places_are_fewer(top):
    report = many_faults(top, 'n' * 20000)
    found = erd.check(report)
    assert 50 < len(found.faults) < 60 and found.all_faults == 5000
    every = erd.check(report, most_faults=None)
    assert found.faults == every.faults[:len(found.faults)]
    assert [fault.place[1] for fault in every.faults] == list(range(5000)) and not every.more


@pytest.mark.parametrize('most, error', [('5', TypeError), (0.5, TypeError), (-1, ValueError), (2 ** 64, ValueError)])
def test_what_is_no_number_of_faults(most, error):
    with pytest.raises(error):
        erd.check('{}', most_faults=most)


def test_differences(top):
    left = (top / 'examples' / 'county.vendor-a.json').read_bytes()
    other = left.replace(b'Ingrith Sablewood', b'Ingrid Sablewood')
    none, found = erd.differences(left, left), erd.differences(left, other)
    assert none and (none.lines, none.status, none.more) == (('same',), 0, False)
    assert not found and (found.status, found.all_differences) == (1, len(found.differences))
    first = found.differences[0]
    assert first.values == {'left': 'Ingrith Sablewood', 'right': 'Ingrid Sablewood'}
    assert dataclasses.replace(first, values=None) == erd.compare(left, other).difference
    assert hash(first) == hash(dataclasses.replace(first, values=None))
    assert found.lines[0] == 'candidate ["local-level","","K-12"]: member "BallotName"'
    assert erd.differences(left, other, most_differences=0).all_differences == len(found.differences)
    refused = erd.differences(left, b'{')
    assert (refused.refused, refused.lines, refused.status) == ('right', ('right: not JSON',), 2)


def test_nothing_listed_is_not_nothing_found(top):
    # Who asks for no entry of a list learns as much from the status as who asks for all.
    left = (top / 'examples' / 'county.vendor-a.json').read_bytes()
    other = left.replace(b'Ingrith Sablewood', b'Ingrid Sablewood')
    found = erd.differences(left, other, most_differences=0)
    assert (found.same, bool(found), found.status, found.outcome, found.more, found.lines) == (False, False, 1, 'different', True, ())
    refused = many_faults(top, 'Remarks')
    for answer in (erd.check(refused, most_faults=0), erd.canonical(refused, most_faults=0), erd.compare(refused, left, most_faults=0),
                   erd.compare(left, refused, most_faults=0), erd.differences(refused, left, most_differences=0)):
        assert (bool(answer), answer.status, answer.outcome) == (False, 1, 'refused')


def contests(top, count, note, kind='a'):
    """A report with contests that have one selection each, with this note and this type of identifier."""
    def identifiers(type_text, value):
        return [{'@type': 'ElectionResults.ExternalIdentifier', 'Type': type_text, 'Value': value}]

    report = json.loads((top / 'examples' / 'one-unit.json').read_text('utf-8'))
    report['Election'][0]['Contest'] = [{
        '@id': f'contest-{index}', '@type': 'ElectionResults.PartyContest', 'Name': 'Mayor', 'ElectionDistrictId': report['GpUnit'][0]['@id'],
        'ExternalIdentifier': identifiers('local-level', f'C-{10000 + index}'),
        'ContestSelection': [{'@id': f'selection-{index}', '@type': 'ElectionResults.CandidateSelection', 'Note': note,
                              'ExternalIdentifier': identifiers(kind, 'S')}]} for index in range(count)]
    return json.dumps(report)


def test_what_differs_inside_selections(top):
    found = erd.differences(contests(top, 1, 1), contests(top, 1, 2)).differences[0]
    name = erd.SelectionName('ElectionResults.CandidateSelection', (), False, None, None, ('a', '', 'S'))
    assert found.selections == (erd.SelectionDifference(name, 'member', 'Note', {'left': 1, 'right': 2}),)
    assert found.line == 'contest ["local-level","","C-10000"]: member "ContestSelection"'


def test_a_list_that_is_longer_than_a_piece(top):
    left, right = contests(top, 2500, 1), contests(top, 2500, 2)
    some, every = erd.differences(left, right), erd.differences(left, right, most_differences=None)
    assert (len(some.differences), some.all_differences, some.more) == (1000, 2500, True)
    assert (every.all_differences, every.more) == (2500, False)
    assert [it.key[2] for it in every.differences] == [f'C-{10000 + index}' for index in range(2500)]
    assert all(len(it.selections) == 1 for it in every.differences)
    assert every.differences[:1000] == some.differences
    # Here each difference has more than 500 bytes, and a piece has a megabyte.
    long = erd.differences(*(contests(top, 2500, note, 'a' * 500) for note in (1, 2)), most_differences=None)
    assert [it.key[2] for it in long.differences] == [f'C-{10000 + index}' for index in range(2500)]


def test_names_of_selections_that_are_too_long_together(top):
    # The text of what differs inside each contest has 600 kB. Two are more than a megabyte.
    found = erd.differences(*(contests(top, 3, note, 'a' * 600_000) for note in (1, 2))).differences
    assert [None if it.selections is None else len(it.selections) for it in found] == [1, None, None]


def test_several_threads(top):
    data = (top / 'examples' / 'county.vendor-a.json').read_bytes()
    wanted, found = erd.canonical(data).form, []
    threads = [threading.Thread(target=lambda: found.extend(erd.canonical(data).form for _ in range(20))) for _ in range(4)]
    for thread in threads:
        thread.start()
    for thread in threads:
        thread.join()
    assert found == [wanted] * 80


def test_repeated_names(top):
    for row in json.loads((top / 'tests' / 'forms' / 'repeated_names.json').read_text(encoding='utf-8')):
        if row['names'] is None:
            with pytest.raises(ValueError):
                erd.repeated_names(row['report'])
        else:
            found = erd.repeated_names(row['report'].encode('utf-8'))
            assert [[name.pointer, name.times] for name in found] == row['names'], row['report']


def test_the_first_repeated_names():
    report = '[' + ','.join(['{"a":1,"a":2}'] * 1001) + ']'
    assert len(erd.repeated_names(report)) == 1000
    assert len(erd.repeated_names(report, most=None)) == 1001
    assert erd.repeated_names(report, most=2)[1].place == (1, 'a')
    assert (erd.repeated_names(report).all_names, erd.repeated_names(report).more) == (1001, True)
    assert not erd.repeated_names(report, most=None).more


@pytest.mark.parametrize('size, wanted', [(2 ** 20 - 6, 2), (2 ** 20 - 5, 1)])
def test_no_repeated_name_is_listed_behind_places_of_a_megabyte(size, wanted):
    """Each step of a place counts with its slash."""
    found = erd.repeated_names('{"%s":[%s]}' % ('n' * size, ','.join(5 * ['{"a":1,"a":2}'])))
    assert (len(found), found.all_names, found.more) == (wanted, 5, True)


def test_repeated_names_with_long_places_are_fewer():
    # Together, their places grow with the square of the report's size.
    report = '{"' + 'n' * 400_000 + '":[' + ','.join(['{"a":1,"a":2}'] * 3000) + ']}'
    found = erd.repeated_names(report)
    assert (len(found), found.all_names, found.more) == (3, 3000, True)
    assert [name.place[1] for name in erd.repeated_names(report, most=None)] == list(range(3000))


def test_repeated_names_without_memory(top, monkeypatch, capfd):
    def refuse(_):
        raise MemoryError
    monkeypatch.setattr(repeats, 'repeated_names', refuse)
    file = str(top / 'examples' / 'one-unit.json')
    assert repeats.main([file]) == 3
    assert capfd.readouterr() == ('', f'{file}: no memory\n')


class Counted:
    """The library, which counts the calls of one function."""

    def __init__(self, library, name):
        self.library, self.name, self.count = library, name, 0

    def __getattr__(self, name):
        self.count += name == self.name
        return getattr(self.library, name)


def test_a_list_is_judged_once_for_many_pieces(top, monkeypatch):
    # 300,000 faults are ten pieces and more. Each call for a piece would judge the report again.
    report = (top / 'examples' / 'one-unit.json').read_text('utf-8').replace('{', '{"Remarks":[' + ','.join(['1.5'] * 300_000) + '],', 1)
    from erd import library
    counted = Counted(library.library(), 'erd_open')
    counted_calls = Counted(counted, 'erd_check_data_piece')
    monkeypatch.setattr(library, 'library', lambda: counted_calls)
    assert len(erd.check(report, most_faults=None).faults) == 300_000
    assert (counted.count, counted_calls.count) == (1, 0)
