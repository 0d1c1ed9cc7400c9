#!/usr/bin/env bash
# Proves and compiles one crate, a program or a static library, over the libraries below it as they stand proved in
# crates/*/out/rlib, and leaves crates/CRATE/out/CRATE or crates/CRATE/out/libCRATE.a; any other
# library it leaves in crates/CRATE/out/rlib. It is for libraries that `rt ci` has left,
# which `rt run` and `rt lib` would prove anew; over others take these. The verdict on the crate stays in crates/CRATE/out/checked,
# and serves again, in a copy of the repository too, where the compiler finds that it is of the same crate. The module of LLVM stays
# as well, as out/module.bc, which packaging/portable compiles for other machines.
#
# usage: compile.sh CRATE [FLAG ..]
#
# With FLAGs for clang, such as those of a profile (packaging/profile), the result, the module and clang's warnings go to out/flagged,
# and what is made without flags stays as it is.
set -eu
cd "$(dirname "$0")/.."
top=$PWD
name=${1?the name of a crate}
flags=("${@:2}")
kit=$(dirname "$(rt doc)")
list=$(packaging/words.sh "$name")
mapfile -t words <<< "$list"

cd "crates/$name"
# another call for this crate, as parts of `make test` make them beside each other, waits for this one
mkdir -p out
exec 8> out/compile.lock
flock 8
to=out${flags:+/flagged}
mkdir -p "$to"
kind=lib$name.a
[ ! -e src/main.rt ] || kind=$name.o

if [ ! -e src/main.rt ] && ! grep -q "^$name staticlib:" "$top/crates.txt"; then
    mkdir -p out/rlib
    "$kit/bin/rattle" build "${words[@]}" --logic-built "$kit/logic_built" --jobs 1 -o "out/rlib/$name.rlib"
    exit
fi

# A toolchain whose clang keeps the module that it compiles, and takes the flags.
toolchain=$(mktemp -d)
trap 'rm -rf "$toolchain"' EXIT
mkdir "$toolchain/bin"
ln -s "$kit/toolchain/lib" "$toolchain/lib"
ln -s "$kit"/toolchain/bin/* "$toolchain/bin"
mv "$toolchain/bin/clang" "$toolchain/bin/clang-of-the-kit"
cp "$top/packaging/portable/keep-clang" "$toolchain/bin/clang"
[ ${#flags[@]} -eq 0 ] || printf '%s\n' "${flags[@]}" > "$toolchain/flags"

# built: compiles what out/checked says is proved
built() {
    "$kit/bin/rattle" build "${words[@]}" --crate-checked out/checked --toolchain "$toolchain" --backend llvm -o "$to/$kind"
}

if [ ! -d out/checked ] || ! built > out/compile.log 2>&1; then
    rm -rf out/checked
    "$kit/bin/rattle" check "${words[@]}" --logic-built "$kit/logic_built" --jobs 1 -o out/checked
    built
fi
mv "$toolchain/module.bc" "$to/module.bc"
[ ${#flags[@]} -eq 0 ] || mv "$toolchain/warnings" "$to/warnings"

if [ -e src/main.rt ]; then
    linked=("$to/$name.o" "$kit/c/libos_c.a" "$kit/c/liblibc_c.a")
    if [[ " ${flags[*]} " = *' -fprofile-generate '* ]]; then
        runtime=$("$top/packaging/profile/runtime.sh" "$toolchain")
        mapfile -t -O "${#linked[@]}" linked <<< "$runtime"
    fi
    "$kit/bin/rattle-link" --target x86_64-unknown-linux-gnu --toolchain "$kit/toolchain" -o "$to/$name" "${linked[@]}"
    kind=$name
fi
(cd "$top" && sha256sum "crates/$name/$to/$kind") > "$to/module.bc.of"
