"""What the commands that the package has alone say of themselves: help, usage and version."""

import os

import pytest

from erd import many
from erd.from_xml import __main__ as from_xml

# Each word of erd-many, and what a reader learns of it.
HELP = {
    'names': 'a folder or a file', '--help': 'show this help', '--json': 'write a JSON array', '--csv': 'write CSV',
    '--prefer': 'the type of identifier that keys follow', '--prepare': 'the files stay as they are', '--pattern': 'which files of a folder are judged',
    '--jobs': 'how many processes (default: one a core)', '--scheduler': 'the Dask cluster with this scheduler',
    '--resume': 'go on where the last run with these words was cut off', '--version': 'write the version, and end',
}


def test_the_help_of_many(capfd):
    told = {(it.option_strings or [it.dest])[-1]: it.help for it in many.parser()._actions}
    assert {name: words for name, words in HELP.items() if words in told.get(name, '')} == HELP and told.keys() == HELP.keys()
    assert many.main(['--help']) == 0
    out, err = capfd.readouterr()
    assert err == '' and out.startswith('usage: python -m erd.many [-h] ') and '(default: *.json)' in out
    assert 'The exit status is the highest that erd check has for one of them.' in ' '.join(out.split())


def test_what_many_takes_for_words_that_are_left_out():
    words = many.parser().parse_args(['a', 'b'])
    assert (words.names, words.prefer, words.prepare, words.pattern, words.jobs) == (['a', 'b'], None, [], '*.json', os.cpu_count())
    assert (words.scheduler, words.resume, words.text_of) == (None, False, many.table_of)


@pytest.mark.parametrize('module, name', [(many, 'python -m erd.many'), (from_xml, 'python -m erd.from_xml')], ids=['many', 'from_xml'])
def test_version_and_usage(top, capfd, module, name):
    assert module.main(['--version']) == 0
    assert capfd.readouterr() == (f'{name} {(top / "VERSION").read_text("ascii").strip()}\n', '')
    assert module.main([]) == 3
    out, err = capfd.readouterr()
    usage, *_, last = err.splitlines()
    assert (out, usage.startswith(f'usage: {name} [-h] '), last.startswith(f'{name}: ')) == ('', True, True)
