#!/usr/bin/env bash
# Makes the archives of the library that stands in out/portable: out/liberd-VERSION-linux-PROCESSOR.tar.gz for x86_64 and
# aarch64, and out/erd-VERSION-windows-x86_64.zip with the program, the page for a browser, the pages for users and ballots too, each with the
# licences, the pages on calls and their examples.
set -eu
cd "$(dirname "$0")/.."
. packaging/version.sh
. packaging/archives.sh
mkdir -p out

# gathered FORM NAME: the files of a form in a folder with this name
gathered() {
    cp -RP "out/portable/$1" "$work/$2"
    mkdir "$work/$2/examples"
    cp examples/calling/* "$work/$2/examples"
    cp LICENSE-MIT LICENSE-APACHE THIRD-PARTY-NOTICES "$work/$2"
    python3 packaging/pages_apart.py "$work/$2" docs/API.md
}

for processor in x86_64 aarch64; do
    name=liberd-$version-linux-$processor
    gathered "linux-$processor" "$name"
    tarball "$work/$name" "out/$name.tar.gz"
done
name=erd-$version-windows-x86_64
gathered windows-x86_64 "$name"
cp out/portable/program-windows/erd.exe "$(packaging/page.sh)" "$work/$name"
cp examples/*.json examples/README.md "$work/$name/examples"
mkdir "$work/$name/docs"
python3 packaging/pages_apart.py --beside examples "$work/$name/docs" docs/GUIDE.md docs/FIXES.md docs/VENDORS.md docs/PROFILE.md docs/LIMITS.md
zipped "$work/$name" "out/$name.zip"
