"""Makes scripts/confusables.mjs: the letters and digits that look like Latin ones, from the list of confusables of Unicode.

usage: confusables.py

The list is that of the Debian package python3-confusable-homoglyphs, and the forms of full width are those of UnicodeData.txt in the
package unicode-data. The table is kept beside the sources, so that a build needs neither.
"""
import json
import pathlib
import re
import unicodedata

LIST = pathlib.Path('/usr/lib/python3/dist-packages/confusable_homoglyphs/confusables.json')
CHARACTERS = pathlib.Path('/usr/share/unicode/UnicodeData.txt')
TABLE = pathlib.Path(__file__).resolve().parent / 'scripts' / 'confusables.mjs'

# The alphabets whose letters are taken, by how the names of the letters begin.
ALPHABETS = re.compile(r'(LATIN|GREEK|COPTIC|CYRILLIC|ARMENIAN|CHEROKEE|FULLWIDTH|(SMALL )?ROMAN NUMERAL) ')
LAST_OF_FIRST_PLANE = 0xffff
PLAIN = re.compile(r'[A-Za-z0-9]')
# Of letters and digits that look like each other, the one that stands for all.
PROTOTYPES = {'I': 'l', '1': 'l', '|': 'l', '0': 'O', 'm': 'rn'}

HEADER = """\
// The letters and digits that look like Latin ones, made by web/confusables.py from the list of confusables of Unicode. Its licence
// stands in THIRD-PARTY-NOTICES.

/** Behind each Latin letter or digit what looks like it: of other alphabets, of full width, and forms of it. */
export const LIKE_LATIN = {
%s
};

/** Behind a text those that look like it in many fonts. */
export const LIKE_PLAIN = {
%s
};
"""


def main():
    like = {}
    for character, plain in sorted((alike() | full_width()).items()):
        like.setdefault(plain, []).append(character)
    rows = ["    %s: '%s'," % (name(plain), ''.join(like[plain])) for plain in sorted(like)]
    plain = {}
    for one, other in PROTOTYPES.items():
        plain.setdefault(other, []).append(one)
    TABLE.write_text(HEADER % ('\n'.join(rows), '\n'.join("    %s: '%s'," % (name(one), ''.join(plain[one])) for one in sorted(plain))),
                     encoding='utf-8')


def name(plain):
    return "'%s'" % plain if plain.isdigit() else plain


def alike():
    """For each letter that looks like a plain one the one that it looks like: of several the one of its case."""
    pairs = json.loads(LIST.read_text(encoding='utf-8'))
    held_to_list(pairs)
    found = {}
    for character in filter(is_taken, pairs):
        plain = sorted({one['c'] for at in [character, *(one['c'] for one in pairs[character])] for one in pairs.get(at, ())
                        if PLAIN.fullmatch(one['c'])})
        if plain:
            found[character] = next((one for one in plain if unicodedata.category(one) == unicodedata.category(character)), plain[0])
    return found


def held_to_list(pairs):
    """What the page takes for alike is so in the list."""
    for one, other in PROTOTYPES.items():
        if other not in [entry['c'] for entry in pairs[one]]:
            raise ValueError('the list does not have %s and %s' % (one, other))


def is_taken(text):
    return (len(text) == 1 and 0x7f < ord(text) <= LAST_OF_FIRST_PLANE and unicodedata.category(text)[0] in 'LN'
            and ALPHABETS.match(unicodedata.name(text, '')) is not None)


def full_width():
    """For each letter and digit of full width the plain one."""
    rows = (line.split(';') for line in CHARACTERS.read_text(encoding='utf-8').splitlines())
    wide = ((chr(int(row[0], 16)), chr(int(row[5].split()[1], 16))) for row in rows if row[5].startswith('<wide> '))
    return {character: plain for character, plain in wide if PLAIN.fullmatch(plain)}


if __name__ == '__main__':
    main()
