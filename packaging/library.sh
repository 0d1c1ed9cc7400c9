#!/usr/bin/env bash
# Makes the C library: out/c/liberd.a, with all that it needs beside the C library of the machine, and out/c/erd.h. Where
# `rt ci` has just proved the crates below it in a fresh clone, these serve as they are; else they are proved where they have
# changed.
set -eu
cd "$(dirname "$0")/.."
mkdir -p out
log=$PWD/out/library.log

if compgen -G 'crates/erd_*/out/rlib/stamp' > /dev/null || [ ! -d crates/erd_canon/out/rlib/erd_canon.rlib ]; then
    (cd crates/erd_c && rt lib) > "$log" 2>&1 || { tail -n 20 "$log" >&2; exit 1; }
else
    packaging/compile.sh erd_c > "$log" 2>&1 || { tail -n 20 "$log" >&2; exit 1; }
fi

packaging/static_library.sh
