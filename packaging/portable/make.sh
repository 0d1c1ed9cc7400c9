#!/usr/bin/env bash
# Makes every form of the library in out/portable, and the program for other machines, with a line for each that says what it
# needs. Where something is missing it says so, makes the others, and ends with status 1. With FORMS_ARE_MADE=yes it takes those that are
# there, as the gate has just made them.
set -u
cd "$(dirname "$0")/../.." || exit 1
status=0
packaging/portable/module.sh || exit 1

# form FILE NEEDS SCRIPT WORD ..: makes a form
form() {
    echo "out/portable/$1 (needs $2)"
    [ "${FORMS_ARE_MADE:-}" != yes ] || [ ! -e "out/portable/$1" ] || return 0
    packaging/portable/"$3" "${@:4}" || { echo "out/portable/$1: not made"; status=1; }
}

form linux-x86_64 'the C compiler alone' linux.sh x86_64
form linux-aarch64 'gcc-aarch64-linux-gnu and libc6-dev-arm64-cross' linux.sh aarch64
form windows-x86_64 'gcc-mingw-w64-x86-64-posix' windows.sh
form erd.wasm 'binaryen, wabt and libclang-rt-22-dev-wasm64' wasm.sh
form program-aarch64 'gcc-aarch64-linux-gnu and libc6-dev-arm64-cross' program.sh aarch64
form program-windows 'gcc-mingw-w64-x86-64-posix' program.sh windows
exit "$status"
