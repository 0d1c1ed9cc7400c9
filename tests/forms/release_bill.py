"""Looks at the bill of materials of a release: `release_bill.py FOLDER VERSION`. Says what is wrong, or nothing."""
import hashlib
import json
import pathlib
import subprocess
import sys

ALSO = {'spdxVersion', 'dataLicense', 'SPDXID', 'name', 'documentNamespace', 'creationInfo', 'packages', 'files', 'relationships'}


# Libraries that are linked, and what Debian's tools put in.
NAMED = {'erd', 'dlmalloc', 'arrayvec', 'clap', 'indexmap', 'itoa', 'json', 'ryu', 'serde_json', 'std', 'strsim', 'thiserror', 'gcc-aarch64-linux-gnu',
         'gcc-mingw-w64-x86-64-posix', 'libclang-rt-22-dev-wasm64', 'mingw-w64-x86-64-dev'}

# What a library is licensed under that has such a file.
TOLD_BY = {'LICENSE-MIT': 'MIT', 'LICENSE-APACHE': 'Apache-2.0', 'LICENSE-UNICODE': 'Unicode-3.0'}


def licences(packages):
    """Only a library without a file for its licence has none in the bill, and what such a file tells is there."""
    page = subprocess.run(['rt', 'doc'], capture_output=True, text=True, check=True).stdout.strip()
    kit = pathlib.Path(page).parent / 'rattle'
    for package in packages:
        files = sorted(path.name for path in (kit / package['name']).glob('LICENSE*'))
        said = {package['licenseConcluded'], package['licenseDeclared']}
        of_kit = package['name'] == 'rattle-kit' or (kit / package['name']).is_dir()
        if ('NOASSERTION' in said) != (of_kit and not files):
            yield f"the licence of {package['name']} is {said}, and its files are {files}"
        for name in files:
            if TOLD_BY.get(name, '') not in package['licenseConcluded']:
                yield f"the licence of {package['name']} leaves out {name}"


def faults(folder, version):
    bill = folder / f'erd-{version}.spdx.json'
    document = json.loads(bill.read_text(encoding='utf-8'))
    if not ALSO <= set(document):
        yield f'it lacks {ALSO - set(document)}'
    if document['spdxVersion'] != 'SPDX-2.3' or document['dataLicense'] != 'CC0-1.0':
        yield 'it is not SPDX 2.3'
    there = {path.name for path in folder.iterdir()} - {'SHA256SUMS', bill.name}
    listed = {file['fileName'][2:]: file for file in document['files']}
    if set(listed) != there:
        yield f'its files are not those of the folder: {set(listed) ^ there}'
    for name in sorted(set(listed) & there):
        sums = {entry['algorithm']: entry['checksumValue'] for entry in listed[name]['checksums']}
        data = (folder / name).read_bytes()
        if sums != {'SHA1': hashlib.sha1(data).hexdigest(), 'SHA256': hashlib.sha256(data).hexdigest()}:
            yield f'the sums of {name} are wrong'
    yield from licences(document['packages'])
    if any(file['licenseConcluded'] != 'MIT OR Apache-2.0' or file['copyrightText'] == 'NOASSERTION' for file in document['files']):
        yield 'a file has another licence, or no copyright'
    names = [entry['SPDXID'] for entry in document['packages'] + document['files']] + ['SPDXRef-DOCUMENT']
    if len(set(names)) != len(names):
        yield 'two things have one identifier'
    for relation in document['relationships']:
        for end in (relation['spdxElementId'], relation['relatedSpdxElement']):
            if end not in names:
                yield f'a relation names {end}, which is not there'
    if NAMED - {package['name'] for package in document['packages']}:
        yield 'a library that is linked is not named'
    if any(package['versionInfo'] != version for package in document['packages'] if package['name'] == 'erd'):
        yield 'it is of another version'


def main():
    for fault in faults(pathlib.Path(sys.argv[1]), sys.argv[2]):
        print(fault)


main()
