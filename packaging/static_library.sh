#!/usr/bin/env bash
# Makes out/c/liberd.a of the code of erd_c as it stands compiled, the kit's calls of malloc and free, and the C side; and
# out/c/erd.h.
#
# usage: static_library.sh [CODE LIBRARY]
#
# With CODE and LIBRARY it makes the library LIBRARY of the code CODE, and no header.
set -eu
cd "$(dirname "$0")/.."
code=${1:-crates/erd_c/out/liberd_c.a}
library=${2:-out/c/liberd.a}
kit=$(dirname "$(rt doc)")
work=$(mktemp -d)
trap 'rm -rf "$work"' EXIT
mkdir -p out/c
"${CC:-cc}" -std=c11 -O2 -fPIC -Wall -Wextra -ffile-prefix-map="$PWD=." -c bindings/c/erd.c -o "$work/erd.o"
(cd "$work" && ar x "$kit/c/liblibc_c.a" heap.pic.o)
cp "$code" "$work/liberd.a"
chmod u+w "$work"/*
ar rcsD "$work/liberd.a" "$work/erd.o" "$work/heap.pic.o"
cp "$work/liberd.a" "$library"
[ $# -gt 0 ] || cp bindings/c/erd.h out/c/erd.h
