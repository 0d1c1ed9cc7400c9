"""Holds what is in archives that are handed on against the lists of packaging/files: `archives.py [--write] FILE ..`.

An entry of a list is a mode, an owner in a tar, and a path; a folder ends with a slash, and a link has its target. In a list @VERSION@
stands for the version, @MACHINE@ for a processor and @LIBRARY@ for the library of a wheel. What the licences ask for, and each file that stands
here as it is in the archive, has the bytes that it has here; no file is empty, each has the day of the version, and a library is said to need
the C library that it needs. With --write the lists are written anew, to be looked at as a change. One line a case that fails, and at the end
the counts.
"""
import datetime
import gzip
import io
import pathlib
import re
import subprocess
import sys
import tarfile
import zipfile

ROOT = pathlib.Path(__file__).resolve().parents[2]
sys.dont_write_bytecode = True
sys.path.append(str(ROOT / 'tests' / 'shared'))
from cases import differing_lines, tell_cases  # noqa: E402

VERSION = (ROOT / 'VERSION').read_text(encoding='utf-8').strip()
LISTS = ROOT / 'packaging' / 'files'
# The archives by their names, and the list of each.
KINDS = {
    r'erd-V\.tgz': 'npm', r'erd-V-.*linux.*\.whl': 'wheel', r'erd-V-.*win_amd64\.whl': 'wheel', r'liberd-V-linux-\w+\.tar\.gz': 'liberd.tar',
    r'liberd0_V-1_\w+\.deb': 'liberd0.deb', r'liberd-dev_V-1_\w+\.deb': 'liberd-dev.deb', r'erd-V-windows-x86_64\.zip': 'windows.zip',
    r'erd-V-conformance\.tar\.gz': 'conformance.tar',
}
ASKED_FOR = ('LICENSE-MIT', 'LICENSE-APACHE', 'THIRD-PARTY-NOTICES')
# Files of archives, and where they stand here.
COPIES = (
    (r'^package/(erd\.wasm)$', r'out/portable/\1'), (r'^package/(.*)$', r'bindings/js/\1'),
    (r'^erd/repeats\.py$', 'contrib/repeated-names.py'), (r'^(erd/.*\.(?:py|typed))$', r'bindings/python/src/\1'),
    (r'/(erd\.h)$', r'bindings/c/\1'), (r'/(liberd\.(?:a|so\..*))$', r'out/portable/linux-@MACHINE@/\1'),
    (r'/(erd\.(?:dll|lib))$', r'out/portable/windows-x86_64/\1'), (r'/(erd\.exe)$', r'out/portable/program-windows/\1'),
    (r'/(erd\.html)$', r'out/portable/\1'), (r'/examples/((?:erd_call|ErdCall)\..*)$', r'examples/calling/\1'),
    (r'/(examples/.*|docs/.*\.png)$', r'\1'), (r'conformance/(run|README\.md)$', r'conformance/\1'), (r'()/changelog\.gz$', r'\1CHANGELOG.md'),
)
# npm gives all files a day of its own.
DAY_OF_NPM = datetime.date(1985, 10, 26)
# Files that are empty on purpose.
EMPTY = ('py.typed',)


def list_of(path):
    """The name of the list of an archive."""
    return next((name for shape, name in KINDS.items() if re.fullmatch(shape.replace('V', re.escape(VERSION)), path.name)), None)


def copied_from(path, name):
    """The file here of which an entry of an archive is a copy, or nothing."""
    machine = 'aarch64' if re.search('aarch64|arm64', path.name) else 'x86_64'
    for shape, place in COPIES:
        found = re.search(shape, name)
        if found and (ROOT / found.expand(place).replace('@MACHINE@', machine)).is_file():
            return ROOT / found.expand(place).replace('@MACHINE@', machine)
    return None


def differs(path, name, data):
    """Whether an entry has other bytes than the file here of which it is a copy."""
    here = copied_from(path, name) if data is not None else None
    return here is not None and (gzip.decompress(data) if name.endswith('.gz') else data) != here.read_bytes()


def day_of_version():
    """The day that the changelog names."""
    return datetime.date.fromisoformat(re.search(f'^## {re.escape(VERSION)} - (.*)$', (ROOT / 'CHANGELOG.md').read_text(encoding='utf-8'), re.M)[1])


def of_tar(data):
    """The entries of a tar: what its list says of each, its path, its bytes and its day."""
    with tarfile.open(fileobj=io.BytesIO(data)) as archive:
        for entry in archive:
            name = entry.name + ('/' if entry.isdir() else f' -> {entry.linkname}' if entry.issym() else '')
            yield (f'{entry.mode:04o} {entry.uid}/{entry.gid} {name}', entry.name, archive.extractfile(entry).read() if entry.isfile() else None,
                   datetime.datetime.fromtimestamp(entry.mtime, datetime.timezone.utc).date())


def of_zip(data):
    with zipfile.ZipFile(io.BytesIO(data)) as archive:
        for entry in archive.infolist():
            yield (f'{entry.external_attr >> 16 & 0o7777:04o} {entry.filename}', entry.filename, None if entry.is_dir() else archive.read(entry),
                   datetime.date(*entry.date_time[:3]))


def entries_of(path):
    if path.suffix == '.deb':
        return of_tar(subprocess.run(['dpkg-deb', '--fsys-tarfile', path], stdout=subprocess.PIPE, check=True).stdout)
    return (of_zip if path.suffix in ('.whl', '.zip') else of_tar)(path.read_bytes())


def in_list(line):
    """A line as its list has it."""
    line = re.sub(r'(?<=linux-)(x86_64|aarch64)|(x86_64|aarch64)(?=-linux-gnu)', '@MACHINE@', line.replace(VERSION, '@VERSION@'))
    return re.sub(r'(?<= erd/)(liberd\.so\.0|erd\.dll)$', '@LIBRARY@', line)


def is_of_case(name):
    """Whether a path of the conformance suite stands in the folder of a case, which conformance/make makes by the cases here."""
    return name.count('/') >= 2 or (ROOT / 'out' / 'conformance' / name.split('/')[-1] / 'why').exists()


def promised(path):
    """The C library that an archive says it needs: a wheel by its name, and a package by what it depends on."""
    if path.name.startswith('liberd0_'):
        depends = subprocess.run(['dpkg-deb', '--field', path, 'Depends'], stdout=subprocess.PIPE, check=True, text=True).stdout
        return re.search(r'^libc6 \(>= (\d+\.\d+)\)$', depends)
    return re.search(r'manylinux_(\d+_\d+)_', path.name)


def needed(path, entries):
    """The newest version of the C library that the library of an archive needs, which is 2.17 or more in the name of a wheel."""
    named = [found for _, place, data, _ in entries if re.search(r'\.so\.\d', place) and data for found in re.findall(rb'GLIBC_(\d+)\.(\d+)', data)]
    newest = max(tuple(map(int, one)) for one in named)
    return '%d.%d' % (max(newest, (2, 17)) if path.suffix == '.whl' else newest)


def cases(paths, is_writing):
    for path in paths:
        name = list_of(path)
        yield f'{path.name}: its kind is known', 'True', str(name is not None)
        if name is None:
            continue
        entries = [entry for entry in entries_of(path) if name != 'conformance.tar' or not is_of_case(entry[1].rstrip('/'))]
        found = ''.join(sorted(f'{in_list(line)}\n' for line, *_ in entries))
        kept = LISTS / f'{name}.txt'
        if is_writing:
            kept.write_text(found, encoding='utf-8')
        yield f'{path.name}: its files', kept.read_text(encoding='utf-8'), found
        if promised(path) or path.name.startswith('liberd0_'):
            yield f'{path.name}: the C library that it needs', needed(path, entries), promised(path)[1].replace('_', '.') if promised(path) else 'none'
        yield f'{path.name}: no file is empty', '', '\n'.join(place for _, place, data, _ in entries if data == b'' and not place.endswith(EMPTY))
        yield f'{path.name}: its files are those here', '', '\n'.join(place for _, place, data, _ in entries if differs(path, place, data))
        yield f'{path.name}: some of its files are here', 'True', str(any(copied_from(path, place) for _, place, _, _ in entries))
        yield f'{path.name}: its days', str(DAY_OF_NPM if name == 'npm' else day_of_version()), '\n'.join(sorted({str(day) for *_, day in entries}))
        for asked in ASKED_FOR:
            here = (ROOT / asked).read_bytes()
            yield f'{path.name}: {asked}', '', '\n'.join(place for _, place, data, _ in entries if place.endswith(f'/{asked}') and data != here)


if __name__ == '__main__':
    words = sys.argv[1:]
    sys.exit(tell_cases(cases([pathlib.Path(word) for word in words if word != '--write'], '--write' in words), differing_lines))
