"""Writes the bill of materials of a release as SPDX 2.3 JSON: the files that are handed on, their sums, and what code is in them.

usage: bill_of_materials.py VERSION EPOCH KIT FOLDER, to standard output

FOLDER has the files. KIT is the folder of the kit, whose libraries crates.txt names. The same files give the same bytes: the
date is that of the version, EPOCH, and the name of the document is made from the sums.
"""
import datetime
import hashlib
import json
import pathlib
import re
import subprocess
import sys

import kit_libraries

ROOT = pathlib.Path(__file__).resolve().parent.parent
EITHER = 'MIT OR Apache-2.0'
OURS = kit_libraries.copyright_of(ROOT)
SUPPLIER = 'Organization: The maintainers of erd'


def identifier(kind, name):
    """An identifier of SPDX for a name."""
    return f'SPDXRef-{kind}-' + re.sub(r'[^A-Za-z0-9.]+', '-', name).strip('-')


def package(name, version, licence, **more):
    """A package of the document, whose own files are not listed."""
    return {'SPDXID': identifier('Package', name), 'name': name, 'versionInfo': version, 'downloadLocation': 'NOASSERTION',
            'filesAnalyzed': False, 'licenseConcluded': licence, 'licenseDeclared': licence, 'copyrightText': 'NOASSERTION', **more}


def from_kit(kit):
    """The kit's compiler and the libraries of the kit as packages."""
    said = subprocess.run(['rt', 'version'], capture_output=True, text=True, check=True).stdout.split()
    yield package('rattle-kit', said[0], 'NOASSERTION', comment='The compiler and the prover.')
    for name in kit_libraries.libraries_below(kit):
        licence = kit_libraries.licence_of(kit / 'rattle' / name)
        words = 'A library of the kit.' if licence else 'A library of the kit, whose files name no licence.'
        yield package(name, said[0], licence or 'NOASSERTION', comment=words,
                      copyrightText=kit_libraries.copyright_of(kit / 'rattle' / name) or 'NOASSERTION')


def version_of_debian(name):
    """The version of an installed package of Debian."""
    words = ['dpkg-query', '--show', '--showformat=${Version}', name]
    return subprocess.run(words, capture_output=True, text=True, check=True).stdout


# The files that have erd.wasm in them, as the page has it, which stands in the packages of the program.
HAVE_WASM = [r'/erd\.wasm$', r'/erd\.html$', r'/erd-.*\.tgz$', r'/erd_.*\.deb$', r'/erd-[^/]*-linux-', 'windows']
FOR_WINDOWS = ['windows', r'win_amd64\.whl$']
# What Debian's tools put into the forms: the package, its licence and the files that have its code.
FROM_DEBIAN = [
    ('libclang-rt-22-dev-wasm64', 'Apache-2.0 WITH LLVM-exception', HAVE_WASM),
    ('gcc-mingw-w64-x86-64-posix', 'GPL-3.0-or-later WITH GCC-exception-3.1', FOR_WINDOWS),
    ('mingw-w64-x86-64-dev', 'MIT AND LicenseRef-mingw-w64-public-domain', FOR_WINDOWS),
    ('gcc-aarch64-linux-gnu', 'GPL-3.0-or-later WITH GCC-exception-3.1', ['aarch64', 'arm64']),
]


def files_of(folder):
    """Each file of the folder with its sums."""
    for path in sorted(folder.iterdir()):
        if path.name == 'SHA256SUMS' or path.suffixes[-2:] == ['.spdx', '.json']:
            continue
        data = path.read_bytes()
        yield {'SPDXID': identifier('File', path.name), 'fileName': './' + path.name, 'licenseConcluded': EITHER,
               'copyrightText': OURS,
               'checksums': [{'algorithm': name, 'checksumValue': hashlib.new(name.lower(), data).hexdigest()}
                             for name in ('SHA1', 'SHA256')]}


def relation(one, kind, other):
    return {'spdxElementId': one, 'relationshipType': kind, 'relatedSpdxElement': other}


def main():
    version, epoch, kit, folder = sys.argv[1], int(sys.argv[2]), pathlib.Path(sys.argv[3]), pathlib.Path(sys.argv[4])
    erd = package('erd', version, EITHER, supplier=SUPPLIER, copyrightText=OURS)
    files = list(files_of(folder))
    parts = list(from_kit(kit))
    dlmalloc = package('dlmalloc', '2.8.6', 'CC0-1.0', comment='The heap of erd.wasm.')
    relations = [relation('SPDXRef-DOCUMENT', 'DESCRIBES', erd['SPDXID'])]
    relations += [relation(erd['SPDXID'], 'CONTAINS', file['SPDXID']) for file in files]
    relations += [relation(parts[0]['SPDXID'], 'BUILD_TOOL_OF', erd['SPDXID'])]
    relations += [relation(erd['SPDXID'], 'STATIC_LINK', part['SPDXID']) for part in parts[1:]]
    parts.append(dlmalloc)
    linked = [(dlmalloc, HAVE_WASM)]
    for name, licence, words in FROM_DEBIAN:
        parts.append(package(name, version_of_debian(name), licence, comment='Of Debian.'))
        linked.append((parts[-1], words))
    for part, words in linked:
        relations += [relation(file['SPDXID'], 'STATIC_LINK', part['SPDXID']) for file in files
                      if any(re.search(word, file['fileName']) for word in words)]
    sums = ''.join(file['checksums'][1]['checksumValue'] for file in files)
    document = {
        'spdxVersion': 'SPDX-2.3', 'dataLicense': 'CC0-1.0', 'SPDXID': 'SPDXRef-DOCUMENT', 'name': f'erd-{version}',
        'documentNamespace': f'https://spdx.org/spdxdocs/erd-{version}-{hashlib.sha256(sums.encode()).hexdigest()}',
        'creationInfo': {'created': datetime.datetime.fromtimestamp(epoch, datetime.timezone.utc).strftime('%Y-%m-%dT%H:%M:%SZ'),
                         'creators': [SUPPLIER, 'Tool: packaging/bill_of_materials.py']},
        'hasExtractedLicensingInfos': [{'licenseId': 'LicenseRef-mingw-w64-public-domain', 'name': 'Public domain',
                                        'extractedText': 'This file has no copyright assigned and is placed in the Public Domain.'}],
        'packages': [erd] + parts, 'files': files, 'relationships': relations,
    }
    json.dump(document, sys.stdout, indent=2, sort_keys=True)
    print()


if __name__ == '__main__':
    main()
