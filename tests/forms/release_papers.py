"""Tries what makes the papers of a release, on a kit of a few small libraries: the bill of materials, the notices, and pages that stand
alone. It needs no proof. One line a case that fails, and at the end the counts."""
import json
import os
import pathlib
import shutil
import subprocess
import sys
import tempfile

ROOT = pathlib.Path(__file__).resolve().parents[2]
sys.dont_write_bytecode = True
sys.path.append(str(ROOT / 'tests' / 'shared'))
from cases import tell_cases  # noqa: E402

CRATES = '# erd: nothing\nlow: one two  # six\nhigh: low three\n'
MIT, APACHE = 'Copyright (c) 2020 Ann\n', 'TERMS AND CONDITIONS FOR USE, REPRODUCTION, AND DISTRIBUTION\n'
# The libraries of the kit, each with its files.
LIBRARIES = {
    'std': {},
    'one': {'LICENSE-MIT': MIT + 'Copyright (c) 2020  Ann\ncopyright notices stay\nCopyright © Bob', 'LICENSE-APACHE': APACHE,
            'src/tests/all.rt': 'four::call', 'src/lib.rt': 'five() // five::call\nmy_two::x core::seven::x one::y',
            'src/deep/more.rt': 'six::call', 'src/tests.rt': 'four::more',
            'README.md': '# one\n\nThe first\nlibrary.\n\nMore of it.\n'},
    'two': {'LICENSE': MIT + 'Words of the licence.\n', 'src/lib.rt': '', 'README.md': '# two\n\nA port of the crate `two` (MIT or Zlib, `LICENSE`).\n'},
    'three': {'LICENSE-UNICODE': 'Unicode', 'src/lib.rt': ''},
    'four': {'src/lib.rt': ''}, 'five': {'src/lib.rt': ''}, 'seven': {'src/lib.rt': ''},
    'six': {'src/lib.rt': 'eight::call', 'README.md': '# six\n\nOurs alone (MIT, no file).\n'},
    'eight': {'LICENSE': MIT, 'LICENSE-NEW': 'New', 'src/lib.rt': 'six::back',
              'README.md': '# eight\n\nAfter one (MIT or Zlib, x), and another under BSL-1.0;\n'},
}
WASM, MINGW, ARM = {'dlmalloc', 'libclang-rt-22-dev-wasm64'}, {'gcc-mingw-w64-x86-64-posix', 'mingw-w64-x86-64-dev'}, {'gcc-aarch64-linux-gnu'}
# The files of a release, and the code of others that is in each beside that of the kit.
FILES = {
    'erd_1.2.3-1_amd64.deb': WASM, 'erd-1.2.3-linux-x86_64.tar.gz': WASM, 'erd-1.2.3-linux-aarch64.tar.gz': WASM | ARM,
    'erd-1.2.3-source.tar.gz': set(), 'erd-1.2.3-conformance.tar.gz': set(), 'erd.html': WASM, 'erd.wasm': WASM, 'erd-1.2.3.tgz': WASM,
    'liberd0_1.2.3-1_amd64.deb': set(), 'liberd-dev_1.2.3-1_amd64.deb': set(), 'liberd0_1.2.3-1_arm64.deb': ARM, 'liberd-dev_1.2.3-1_arm64.deb': ARM,
    'liberd-1.2.3-linux-x86_64.tar.gz': set(), 'liberd-1.2.3-linux-aarch64.tar.gz': ARM, 'erd-1.2.3-windows-x86_64.zip': WASM | MINGW,
    'erd-1.2.3-py3-none-manylinux_2_17_x86_64.whl': set(), 'erd-1.2.3-py3-none-manylinux_2_17_aarch64.whl': ARM, 'erd-1.2.3-py3-none-win_amd64.whl': MINGW,
}
# The libraries below the crates: their versions, licences and owners.
KIT, NONE = '1z', 'NOASSERTION'
BELOW = {
    'std': (KIT, NONE, NONE), 'one': (KIT, 'MIT OR Apache-2.0', 'Copyright (c) 2020 Ann\nCopyright © Bob'),
    'two': (KIT, 'MIT OR Zlib', 'Copyright (c) 2020 Ann'),
    'three': (KIT, 'Unicode-3.0', NONE), 'six': (KIT, NONE, NONE), 'eight': (KIT, '(MIT OR Zlib) AND BSL-1.0', 'Copyright (c) 2020 Ann'),
}
OTHERS = {
    'rattle-kit': (KIT, NONE, NONE), 'dlmalloc': ('2.8.6', 'CC0-1.0', NONE),
    'libclang-rt-22-dev-wasm64': ('7.libclang-rt-22-dev-wasm64', 'Apache-2.0 WITH LLVM-exception', NONE),
    'gcc-mingw-w64-x86-64-posix': ('7.gcc-mingw-w64-x86-64-posix', 'GPL-3.0-or-later WITH GCC-exception-3.1', NONE),
    'mingw-w64-x86-64-dev': ('7.mingw-w64-x86-64-dev', 'MIT AND LicenseRef-mingw-w64-public-domain', NONE),
    'gcc-aarch64-linux-gnu': ('7.gcc-aarch64-linux-gnu', 'GPL-3.0-or-later WITH GCC-exception-3.1', NONE),
    'erd': ('1.2.3', 'MIT OR Apache-2.0', 'Copyright (c) 2026 Us'),
}
PAGE = """# A page

See [the other](OTHER.md), [a part](OTHER.md#part), [this](#top), [the web](https://a.example/b.md), [an example](../examples/a.json#x), [more](../more/b.txt),
[GUIDE.md](../docs/GUIDE.md#far), [`code`](../src/code.c) and ![a picture](pictures/one.png).
"""
# What it is where OTHER.md is copied too, and examples stand beside.
APART = """# A page

See [the other](OTHER.md), [a part](OTHER.md#part), [this](#top), [the web](https://a.example/b.md), [an example](../examples/a.json#x), [more](../more/b.txt),
GUIDE (`docs/GUIDE.md` of the source), `code` (`src/code.c` of the source) and ![a picture](one.png).
"""


def write(folder, files):
    for name, text in files.items():
        path = folder / name
        path.parent.mkdir(parents=True, exist_ok=True)
        path.write_text(text, encoding='utf-8')


def tool(path, text):
    path.parent.mkdir(parents=True, exist_ok=True)
    path.write_text('#!/bin/bash\n' + text, encoding='utf-8')
    path.chmod(0o755)


def repository(top):
    """A repository of a few crates, with a kit and the tools that tell of it."""
    shutil.copytree(ROOT / 'packaging', top / 'packaging')
    write(top, {'crates.txt': CRATES, 'LICENSE-MIT': 'MIT License\n\nCopyright (c) 2026 Us\n', 'LICENSE-APACHE': APACHE})
    for name, files in LIBRARIES.items():
        (top / 'kit' / 'rattle' / name / 'src').mkdir(parents=True)
        write(top / 'kit' / 'rattle' / name, files)
    (top / 'kit' / 'rattle' / 'logic').mkdir()
    tool(top / 'tools' / 'rt', f'case $1 in doc) echo {top}/kit/page.html ;; version) echo "{KIT} logic 0" ;; esac\n')
    tool(top / 'tools' / 'dpkg-query', '[ "$*" = "--show --showformat=\\${Version} ${3}" ] && printf 7.%s "$3"\n')


def run(top, *words):
    return subprocess.run([sys.executable, *words], cwd=top, env={**os.environ, 'PATH': f'{top}/tools:{os.environ["PATH"]}'}, capture_output=True, text=True,
                          check=False)


def told(packages):
    return {package['name']: (package['versionInfo'], package['licenseConcluded'], package['copyrightText']) for package in packages}


def bill(top):
    """The cases of the bill of materials: each name of a release has a file with that name in it."""
    write(top / 'release', {name: name for name in FILES})
    write(top / 'release', {'SHA256SUMS': 'old', 'erd-1.2.3.spdx.json': 'old'})
    ran = run(top, 'packaging/bill_of_materials.py', '1.2.3', '86400', str(top / 'kit'), str(top / 'release'))
    yield 'the bill is made', '', ran.stderr
    document = json.loads(ran.stdout)
    name_of = {entry['SPDXID']: entry.get('name') or entry['fileName'][2:] for entry in document['packages'] + document['files']}
    found = [(name_of.get(one['spdxElementId'], one['spdxElementId']), one['relationshipType'], name_of[one['relatedSpdxElement']])
             for one in document['relationships']]
    yield 'the packages of the bill', {**BELOW, **OTHERS}, told(document['packages'])
    yield 'what it is of', [('SPDXRef-DOCUMENT', 'DESCRIBES', 'erd')], [one for one in found if 'DESCRIBES' in one]
    yield 'what is handed on', [('erd', 'CONTAINS', name) for name in sorted(FILES)], [one for one in found if 'CONTAINS' in one]
    yield 'what made it', [('rattle-kit', 'BUILD_TOOL_OF', 'erd')], [one for one in found if 'BUILD_TOOL_OF' in one]
    linked = {(one, other) for one, kind, other in found if kind == 'STATIC_LINK'}
    yield 'what is linked into all', {('erd', name) for name in BELOW}, {pair for pair in linked if pair[0] == 'erd'}
    for name, names in FILES.items():
        yield f'what is linked into {name}', names, {other for one, other in linked if one == name}
    yield 'nothing else is told', len(FILES) + 2, sum(kind != 'STATIC_LINK' for _, kind, _ in found)
    yield 'its day', '1970-01-02T00:00:00Z', document['creationInfo']['created']
    yield 'its name', 'erd-1.2.3', document['name']
    whose = 'Organization: The maintainers of erd'
    yield 'whose it is', [whose, whose, 'Tool: packaging/bill_of_materials.py'], \
        [document['packages'][0].get('supplier'), *document['creationInfo']['creators']]
    yield 'the licence that SPDX has not', ['LicenseRef-mingw-w64-public-domain'], [one['licenseId'] for one in document['hasExtractedLicensingInfos']]
    yield 'a library without a licence', 'A library of the kit, whose files name no licence.', comment_of(document, 'six')
    yield 'a library with one', 'A library of the kit.', comment_of(document, 'one')
    yield 'no file of a package is told', {False}, {package['filesAnalyzed'] for package in document['packages']}
    yield from namespaces(top, document['documentNamespace'])


def comment_of(document, name):
    return next(package['comment'] for package in document['packages'] if package['name'] == name)


def namespaces(top, first):
    """The name of the document is that of its files: another file gives another."""
    def again():
        return json.loads(run(top, 'packaging/bill_of_materials.py', '1.2.3', '5', str(top / 'kit'), str(top / 'release')).stdout)['documentNamespace']

    yield 'the name of the same files', [first, 'https://spdx.org/spdxdocs/erd-1.2.3-'], [again(), first[:-64]]
    write(top / 'release', {'erd.html': 'another'})
    yield 'the name of other files', True, again() != first


def notices(top):
    """The cases of the notices: what is written, what is told of another text, and what Debian gets."""
    wrong = (1, 'FAILED: THIRD-PARTY-NOTICES has the licences of the kit\n0 passed, 1 failed\n')
    yield 'no notices', wrong, status_of(run(top, 'packaging/notices.py'))
    yield 'they are written', (0, ''), status_of(run(top, 'packaging/notices.py', '--write'))
    yield 'they are right', (0, 'ok: THIRD-PARTY-NOTICES has the licences of the kit\n1 passed, 0 failed\n'), status_of(run(top, 'packaging/notices.py'))
    text = (top / 'THIRD-PARTY-NOTICES').read_text(encoding='utf-8')
    parts = text.split('-' * 78 + '\n')
    heads = ['eight', 'one', 'three', 'two', 'dlmalloc, in erd.wasm, the npm package and the page', 'Without a licence of their own']
    yield 'the libraries that have notices', heads, [part.split('\n')[0] for part in parts[1:]]
    yield 'a library', 'one\n\nThe first library.\n\nLICENSE-APACHE:\n\n' + APACHE + '\nLICENSE-MIT:\n\n' + LIBRARIES['one']['LICENSE-MIT'], parts[2].rstrip()
    yield 'a text that stands above', True, 'LICENSE:\n\nThe text is that of LICENSE of eight, above.\n' not in parts[4] and 'Words of the licence.' in parts[4]
    yield 'those that have none', True, '\nsix, std come with the kit' in text
    write(top / 'kit' / 'rattle' / 'two', {'LICENSE': MIT.replace(' ', '\n')})
    yield 'another licence is told', wrong, status_of(run(top, 'packaging/notices.py'))
    run(top, 'packaging/notices.py', '--write')
    yield 'the same words are not told twice', True, \
        'LICENSE:\n\nThe text is that of LICENSE of eight, above.\n' in (top / 'THIRD-PARTY-NOTICES').read_text(encoding='utf-8')
    debian = run(top, 'packaging/notices.py', '--debian').stdout
    yield 'Debian has the Apache License', (0, 1), (debian.count('TERMS AND CONDITIONS'), debian.count('/usr/share/common-licenses/Apache-2.0.'))
    yield 'and the others are told', [1, 1, 1, 1], [debian.count(words) for words in ('copyright notices stay', '\nUnicode\n', '\nNew\n', 'CC0 1.0')]


def of_the_kit():
    """Each library that the kit says is below our crates has its licences in the notices."""
    kit = pathlib.Path(subprocess.run(['rt', 'doc'], capture_output=True, text=True, check=True).stdout.strip()).parent
    lines = [line.split('#')[0].split(':') for line in (ROOT / 'crates.txt').read_text(encoding='utf-8').splitlines()]
    left, below = {'std', *(name for line in lines if len(line) == 2 for name in line[1].split())}, set()
    while left:
        name = left.pop()
        below.add(name)
        path = kit / 'rlibs' / f'{name}.rlib' / 'format'
        if path.exists():
            left |= {line[4:] for line in path.read_text(encoding='utf-8').splitlines() if line.startswith('dep ')} - below
    below = {name for name in below if (kit / 'rattle' / name).is_dir()}
    text = (ROOT / 'THIRD-PARTY-NOTICES').read_text(encoding='utf-8')
    yield 'the kit names libraries', True, len(below) > 10
    yield 'each library of the kit that is linked has its notice', set(), {name for name in below if f'\n{name}\n' not in text and f'{name},' not in text
                                                                             and f'{name} come with' not in text}


def status_of(ran):
    return ran.returncode, ran.stdout


def pages(top):
    """Pages that stand alone."""
    write(top / 'docs', {'PAGE.md': PAGE, 'OTHER.md': '# Other\n', 'GUIDE.md': '', 'pictures/one.png': 'dots'})
    (top / 'alone').mkdir()
    ran = run(top, 'packaging/pages_apart.py', '--beside', 'examples', '--beside', 'more', 'alone', 'docs/PAGE.md', 'docs/OTHER.md')
    yield 'the pages are copied', (0, ''), (ran.returncode, ran.stderr)
    yield 'a page that stands alone', APART, (top / 'alone' / 'PAGE.md').read_text(encoding='utf-8')
    yield 'the files', ['OTHER.md', 'PAGE.md', 'one.png'], sorted(path.name for path in (top / 'alone').iterdir())
    yield 'the picture', 'dots', (top / 'alone' / 'one.png').read_text(encoding='utf-8')


def cases():
    with tempfile.TemporaryDirectory() as folder:
        top = pathlib.Path(folder)
        repository(top)
        for part in (bill, notices, pages):
            yield from part(top)
    yield from of_the_kit()


if __name__ == '__main__':
    sys.exit(tell_cases(cases()))
