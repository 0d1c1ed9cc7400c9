"""How the package deals with the shared library: where it looks for it, what it gives back, and what it does without memory."""

import ctypes
import re
from collections import Counter

import pytest

import erd
from erd import library, prepare

# A call for each function of the library that hands out a text. The first argument is an accepted report.
CALLS = {
    'erd_check_data_piece': lambda report: erd.check(report),
    'erd_canonical_data_piece': lambda report: erd.canonical(report),
    'erd_compare_data_piece': lambda report: erd.compare(report, report),
    'erd_differences_values': lambda report: erd.differences(report, report),
    'erd_words': lambda report: erd.words(report),
    'erd_ballots': lambda report: erd.ballots(report),
    'erd_ballot': lambda report: erd.ballot(report, 0),
    'erd_ballot_differences': lambda report: erd.ballot_differences(report, report),
    'erd_ballots_beside': lambda report: erd.ballots_beside(report, report, 0, 0),
    'erd_prepare': lambda report: prepare.prepare(report),
    'erd_command_line': lambda _: library.command_line(['check', 'a']),
    'erd_next': lambda report: erd.check(report, most_faults=None),
    'erd_open': lambda report: erd.check(report, most_faults=None),
}


class Recorded:
    """The library, which keeps the names of the functions that are called. One of them may have no memory."""

    def __init__(self, real, poor=None):
        self.real, self.poor, self.called = real, poor, Counter()

    def __getattr__(self, name):
        self.called[name] += 1
        if name == self.poor:
            return lambda *_: None if name == 'erd_open' else library.NO_MEMORY
        return getattr(self.real, name)


@pytest.fixture
def report(top):
    return (top / 'examples' / 'small-ballot.json').read_bytes()


@pytest.mark.parametrize('name', CALLS)
def test_what_the_library_hands_out_is_given_back(report, monkeypatch, name):
    recorded = Recorded(library.library())
    monkeypatch.setattr(library, 'library', lambda: recorded)
    CALLS[name](report)
    texts = sum(count for called, count in recorded.called.items() if called not in ('erd_open', 'erd_close', 'erd_free'))
    assert recorded.called[name] > 0 and recorded.called['erd_free'] == texts
    assert recorded.called['erd_open'] == recorded.called['erd_close']


@pytest.mark.parametrize('name', CALLS)
def test_no_memory_is_an_error(report, monkeypatch, name):
    recorded = Recorded(library.library(), name)
    monkeypatch.setattr(library, 'library', lambda: recorded)
    with pytest.raises(MemoryError, match='^out of memory$'):
        CALLS[name](report)


# What stands for each type of the header, and the calls of the header that the package does not use.
TYPES = {'const void *': ctypes.c_char_p, 'const char *': ctypes.c_char_p, 'char *': ctypes.c_void_p, 'struct erd_list *': ctypes.c_void_p,
         'size_t': ctypes.c_size_t, 'int': ctypes.c_int, 'enum': ctypes.c_int, 'char **': ctypes.POINTER(ctypes.c_void_p),
         'size_t *': ctypes.POINTER(ctypes.c_size_t), 'struct erd_piece *': ctypes.POINTER(library.Piece), 'void': None}
UNUSED = {'erd_check', 'erd_canonical', 'erd_compare', 'erd_check_data', 'erd_compare_data'}


def type_of(words):
    """The type that the words of the header name."""
    return TYPES['enum' if words.startswith('enum ') else words.strip()]


def test_each_call_is_declared_as_in_the_header(top):
    # A pointer that is taken for an int loses its upper half, on machines where it has one.
    header = (top / 'bindings' / 'c' / 'erd.h').read_text('utf-8')
    calls = {name: (result, words) for result, name, words in re.findall(r'^([a-z_ ]+ \*?)(erd_\w+)\(([^)]*)\);', header, re.M)}
    assert len(calls) > 20 and UNUSED < calls.keys()
    for name, (result, words) in calls.items():
        if name not in UNUSED:
            function = getattr(library.library(), name)
            wanted = [type_of(re.sub(r'\w+$', '', ' '.join(one.split()))) for one in words.split(',') if words != 'void']
            assert (name, function.restype, list(function.argtypes)) == (name, type_of(result), wanted)


def test_where_the_library_is(tmp_path, monkeypatch):
    monkeypatch.setattr(library, '__file__', str(tmp_path / 'library.py'))
    monkeypatch.setenv('ERD_LIBRARY', '/some/where.so')
    assert library.path_of_library() == '/some/where.so'
    monkeypatch.setenv('ERD_LIBRARY', '')
    assert library.path_of_library() == library.NAME
    monkeypatch.delenv('ERD_LIBRARY')
    assert library.path_of_library() == library.NAME
    (tmp_path / library.NAME).touch()
    assert library.path_of_library() == str(tmp_path / library.NAME)


def test_the_version_of_the_package(top):
    assert erd.__version__ == (top / 'VERSION').read_text('ascii').strip()
    with pytest.raises(AttributeError, match='^nosuch$'):
        erd.nosuch


HALF = 'has half a surrogate pair, so it has no form in UTF-8'


@pytest.mark.parametrize('call, kind, words', [
    (lambda: erd.check(1), TypeError, 'a report is bytes or text, and not int'),
    (lambda: erd.check('"\ud800"'), ValueError, f'a report {HALF}'),
    (lambda: erd.check(b' ' * 67108865), erd.TooLong, 'a report has more than 67,108,864 bytes'),
    (lambda: erd.check('{}', prefer=1), TypeError, 'prefer is text, and not int'),
    (lambda: erd.check('{}', prefer='a\0'), ValueError, 'prefer has a zero character in it'),
    (lambda: erd.check('{}', prefer='\ud800'), ValueError, f'prefer {HALF}'),
    (lambda: erd.check('{}', most_faults='5'), TypeError, 'the bound on a list is a whole number or None, and not str'),
    (lambda: erd.check('{}', most_faults=-1), ValueError, 'the bound on a list is below 0 or too large'),
    (lambda: erd.ballot('{}', '0'), TypeError, 'a position is a whole number, and not str'),
    (lambda: erd.ballot('{}', -1), ValueError, 'a position is below 0 or too large'),
    (lambda: prepare.prepare(b'{}', ['nosuch']), ValueError, "no step has the name 'nosuch'"),
    (lambda: prepare.prepare(b'{'), prepare.NotJson, 'not JSON'),
], ids=['no-report', 'half-a-pair', 'too-long', 'no-type', 'zero', 'half-a-type', 'no-bound', 'low-bound', 'no-position', 'low-position', 'no-step',
        'not-json'])
def test_the_words_of_errors(call, kind, words):
    with pytest.raises(kind) as found:
        call()
    assert str(found.value) == words
