#!/usr/bin/env bash
# Makes the wheels of the Python package in out/python, one for each platform whose shared library is in out/portable. It needs
# Debian's python3-setuptools, python3-wheel and binutils.
set -eu
cd "$(dirname "$0")/.."
. packaging/version.sh
work=$(mktemp -d)
trap 'rm -rf "$work"' EXIT
wheels=$PWD/out/python
rm -rf "$wheels"
mkdir -p "$wheels"

# needed LIBRARY: the newest version of the C library that a shared library needs, as 2_34. No manylinux name is older than 2_17 for
# these machines
needed() {
    { echo 2_17; objdump -T "$1" | grep -oE 'GLIBC_[0-9]+\.[0-9]+' | sed 's/GLIBC_//; s/\./_/'; } | sort -t _ -k 1,1n -k 2,2n | tail -n 1
}

# wheel PLATFORM LIBRARY NAME: a wheel for the platform, with the library under this name
wheel() {
    local folder=$work/$1
    cp -r bindings/python "$folder"
    rm -rf "$folder/tests" "$folder"/src/erd/__pycache__
    install -m 644 contrib/repeated-names.py "$folder/src/erd/repeats.py"
    cp "$2" "$folder/src/erd/$3"
    cp LICENSE-MIT LICENSE-APACHE THIRD-PARTY-NOTICES "$folder"
    dated "$folder"
    (cd "$folder" && ERD_PLATFORM=$1 ERD_VERSION=$version /usr/bin/python3 setup.py -q bdist_wheel -d "$wheels") \
        > "$work/log" 2>&1 || { cat "$work/log" >&2; exit 1; }
}

for machine in x86_64 aarch64; do
    library=out/portable/linux-$machine/liberd.so.0
    [ ! -e "$library" ] || wheel "manylinux_$(needed "$library")_$machine" "$library" liberd.so.0
done
[ ! -e out/portable/windows-x86_64/erd.dll ] || wheel win_amd64 out/portable/windows-x86_64/erd.dll erd.dll
ls "$wheels"
