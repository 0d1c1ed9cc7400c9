#!/usr/bin/env python3
"""Makes THIRD-PARTY-NOTICES: what code of others is compiled in, with the texts of its licences, as the kit's files have them.

usage: notices.py [--write | --debian]

Without a word it says whether the file is right: one line a case, and at the end the counts. With --debian it writes the notices as
Debian has them: the Apache License stands in each Debian system, so a package only names it.
"""
import pathlib
import re
import subprocess
import sys

import kit_libraries

ROOT = kit_libraries.ROOT
FILE = ROOT / 'THIRD-PARTY-NOTICES'
LINE = '-' * 78
BEGINNING = """Third-party notices of erd

The program, the libraries, the packages and the page of erd have code in them that
others wrote, or that follows the code of others. This file lists it with its licences.
It is made from the files of the kit with which erd is compiled.
"""
DLMALLOC = """dlmalloc, in erd.wasm, the npm package and the page

Doug Lea's malloc 2.8.6, which he released to the public domain (CC0 1.0,
https://creativecommons.org/publicdomain/zero/1.0/). The file is that of emscripten 3.1.6.
"""
OTHERS = """Without a licence of their own

{names} come with the kit, which names no other author and has no licence file for them.

In the forms for other machines there is also code of the tools that made them: of
LLVM's compiler-rt in erd.wasm (Apache-2.0 WITH LLVM-exception), of GCC's libgcc in
erd.dll, erd.exe, and liberd.so and erd for aarch64 (GPL-3.0-or-later WITH
GCC-exception-3.1), and of mingw-w64 in erd.dll and erd.exe (MIT, and in the public
domain). These exceptions ask for no notice.
"""


def section(name, words, texts):
    """A library: its name, what its README says of it, and its licences."""
    return '\n'.join([LINE, name, '', words, '', *('\n'.join([title + ':', '', text.strip('\n'), '']) for title, text in texts)])


def notices(kit):
    """The whole text. A licence that several libraries have, word for word, stands at the first."""
    parts, seen, others, tables = [BEGINNING], {}, [], []
    for name in kit_libraries.libraries_below(kit):
        folder = kit / 'rattle' / name
        files = kit_libraries.licence_files(folder)
        if not files:
            others.append(name)
            continue
        if name.startswith('ucd_'):
            tables.append(name)
            continue
        texts = []
        for path in files:
            text = path.read_text(encoding='utf-8')
            first = seen.setdefault(' '.join(text.split()), '%s of %s' % (path.name, name))
            texts.append((path.name, text if first.endswith(' ' + name) else 'The text is that of %s, above.' % first))
        also = ' (and its tables: %s)' % ', '.join(tables) if name == 'unicode' else ''
        parts.append(section(name + also, kit_libraries.first_words(folder), texts))
    parts += [LINE + '\n' + DLMALLOC, LINE + '\n' + OTHERS.format(names=', '.join(others))]
    return '\n'.join(parts)


def for_debian(text):
    """The notices without the text of the Apache License."""
    parts = re.split(r'^(LICENSE[A-Z-]*:\n|-{78}\n)', text, flags=re.M)
    return ''.join('\nThe Apache License 2.0, which stands in /usr/share/common-licenses/Apache-2.0.\n\n'
                   if 'TERMS AND CONDITIONS FOR USE, REPRODUCTION' in part else part for part in parts)


def main():
    if '--debian' in sys.argv:
        print(for_debian(FILE.read_text(encoding='utf-8')))
        return 0
    page = subprocess.run(['rt', 'doc'], capture_output=True, text=True, check=True).stdout.strip()
    made = notices(pathlib.Path(page).parent)
    if '--write' in sys.argv:
        FILE.write_text(made, encoding='utf-8')
        return 0
    is_right = FILE.exists() and FILE.read_text(encoding='utf-8') == made
    print('%s: THIRD-PARTY-NOTICES has the licences of the kit' % ('ok' if is_right else 'FAILED'))
    print('%d passed, %d failed' % (is_right, not is_right))
    return int(not is_right)


if __name__ == '__main__':
    sys.exit(main())
