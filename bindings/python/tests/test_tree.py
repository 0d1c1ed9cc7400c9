"""What the tree of a report takes for JSON, as docs/PROFILE.md has it, and what is written of it again."""

import pytest

from erd import tree


@pytest.mark.parametrize('opening, inner, closing', [('[', '', ']'), ('{"a":', '1', '}'), ('[{"a":', '1', '}]')], ids=['arrays', 'objects', 'both'])
def test_levels(opening, inner, closing):
    """127 levels of arrays and objects are read, and no more."""
    times, left = divmod(127, opening.count('[') + opening.count('{'))
    text = '[' * left + opening * times + inner + closing * times + ']' * left
    assert tree.written(tree.read_tree(text.encode('ascii'))) == text
    with pytest.raises(tree.NotJson):
        tree.read_tree(f'[{text}]'.encode('ascii'))


@pytest.mark.parametrize('text', [
    '1e400', '-1e400', 'NaN', 'Infinity', '-Infinity', '01', '+1', '1.', '\u0661', '"\\ud800"', '{"\\udc00":1}', '[1,]', '{"a":1', '"\t"', '1 2', '',
    '\ufeff\ufeff1'])
def test_what_is_no_json(text):
    with pytest.raises(tree.NotJson, match='^not JSON$'):
        tree.read_tree(text.encode('utf-8'))


def test_bytes_that_are_no_text():
    with pytest.raises(tree.NotJson):
        tree.read_tree(b'"\xff"')


@pytest.mark.parametrize('text, wanted', [
    (' [1.50, -0, 1e300, 18446744073709551616] ', '[1.50,-0,1e300,18446744073709551616]'), ('{"b":1,"a":2,"b":3}', '{"b":3,"a":2}'),
    ('[null,true,false,""]', '[null,true,false,""]'), ('"\\ud83d\\ude00\\u00e9\\u001f\\"\\\\"', '"\U0001f600é\\u001f\\"\\\\"'), ('\ufeff{}', '{}')])
def test_what_is_written_again(text, wanted):
    assert tree.written(tree.read_tree(text.encode('utf-8'))) == wanted
