"""Reads the table "What a voter sees" of docs/PROFILE.md: for each member of each class its word."""
import pathlib
import re

PAGE = pathlib.Path(__file__).resolve().parents[2] / 'docs' / 'PROFILE.md'
WORDS = ('seen', 'unseen', 'not compared')


def words_of_voters():
    """For each class the word of each of its members."""
    section = PAGE.read_text(encoding='utf-8').split('## What a voter sees\n')[1].split('\n## ')[0]
    words = {}
    for classes, members, word in re.findall(r'^\| ([\w, ]+) \| (`.*?`) \| ([\w ]+) \| .+ \|$', section, re.M):
        assert word in WORDS, 'no word of the table is %r' % word
        for name in classes.split(', '):
            own, new = words.setdefault(name, {}), re.findall(r'`(\w+)`', members)
            assert not own.keys() & new, 'members of %s have two words: %s' % (name, ', '.join(own.keys() & new))
            own.update(dict.fromkeys(new, word))
    return words
