#!/usr/bin/env bash
# Whether the same source gives the same bytes: compiles the program and the C library once more, in a copy of the repository
# in another folder, and compares. Where those of a release are here, these are compiled there, and the plain files only as far as to their
# module of LLVM, which has to be the same: clang makes both of it. The libraries below are those that are proved here, so at most the two
# crates on top are proved again, and where packaging/compile.sh has left its verdict on one, it isn't; that these libraries have no path
# and no time is looked up. One line a case.
set -u
. "$(dirname "$0")/../shared/start.sh" || exit 1
. tests/shared/commands.sh
copy=$work/another/folder

# mentions FILE ..: the files, or files below these folders, that have the path of something in this folder
mentions() {
    grep -rlF -e "$PWD/" "$@" 2> /dev/null | head -n 3
}

# made_elsewhere NAME CRATE CODE PLAIN COMMAND ..: the file of a release, of the code whose module is here; or where one of these is not
# here, the plain file, by the command
made_elsewhere() {
    said "$1 has no path" "$(mentions "$4")"
    if [ -e "out/profiled/$1" ] && sha256sum --status --check "crates/$2/out/module.bc.of" 2> /dev/null; then
        mkdir -p "$copy/$(dirname "$4")" && cp "$4" "$copy/$4"
        run "$copy/packaging/profiled.sh" "$1"
        expect "$1 is compiled with the profile in another folder" 0
        same_bytes "$1 with the profile has the same bytes" "out/profiled/$1" "$copy/out/profiled/$1"
        same_bytes "$1 is of the same module" "crates/$2/out/module.bc" "$copy/crates/$2/out/flagged/module.bc"
        said "$1 with the profile has no path" "$(mentions "out/profiled/$1")"
        return
    fi
    echo "note: $1 is compiled without a profile, since the file of a release or the module of the code is not here"
    run "$copy/${5}" "${@:6}"
    expect "$1 is compiled in another folder" 0
    same_bytes "$1 has the same bytes" "$4" "$copy/$3"
}

said 'the proved libraries have no path' "$(mentions crates/*/out/rlib)"

mkdir -p "$copy/crates"
cp -r Makefile crates.txt HANDLES VERSION packaging bindings tests "$copy"
for crate in crates/*/; do
    name=$(basename "$crate")
    mkdir -p "$copy/crates/$name"
    for part in src specs proofs; do
        [ ! -d "$crate$part" ] || cp -r "$crate$part" "$copy/crates/$name"
    done
    for kept in rlib checked; do
        [ ! -d "${crate}out/$kept" ] || { mkdir -p "$copy/crates/$name/out"; cp -r "${crate}out/$kept" "$copy/crates/$name/out"; }
    done
done

# What `rt ci` or `rt run` has compiled is what packaging/compile.sh compiles, where that has been run; it may be at work just now.
exec 8> crates/erd/out/compile.lock
flock 8
same_bytes 'the program is the one that is compiled' erd crates/erd/out/erd
exec 8>&-
made_elsewhere erd erd crates/erd/out/erd erd packaging/compile.sh erd
if [ -e out/c/liberd.a ]; then
    rm -f "$copy"/crates/*/out/rlib/stamp
    made_elsewhere liberd.a erd_c out/c/liberd.a out/c/liberd.a packaging/library.sh
else
    echo 'skipped the C library: there is none here; make library makes it'
fi

counts
