#!/usr/bin/env bash
# Makes the program for other machines, and runs the table of command lines and the conformance suite over each: over that for
# aarch64 under qemu, and over that for Windows under wine, which both start slowly, so that each report goes to one command, in turn. One
# line a case.
set -u
. "$(dirname "$0")/../shared/start.sh" || exit 1
. tests/shared/commands.sh
. tests/shared/wine.sh
made=out/portable

# tried NAME KIND COMMAND ..: the program does with each command line what ./erd does, and passes the conformance suite
tried() {
    local name=$1 kind=$2
    shift 2
    python3 tests/forms/command_lines.py --beside ./erd "$name" "$kind" "$@" > "$work/lines"
    counted "the table of command lines: $name" "$work/lines"
    # a trial of wrong lines runs no more than has their cases
    [[ -z ${CASES:-} || $CASES == *'the conformance suite'* ]] || return
    run conformance/run --briefly "$@"
    said "$name: the conformance suite: $(tail -n 1 "$work/out")" "$(grep FAILED "$work/out" | head -n 3)$(
        tail -n 1 "$work/out" | grep -qx '[1-9][0-9]* passed, 0 failed' || echo 'it did not pass')"
}

of_aarch64() {
    run packaging/portable/program.sh aarch64
    expect 'erd for aarch64' 0
    [ "$status" -eq 0 ] || return
    equal 'it needs the C library alone' "$(readelf -d "$made/program-aarch64/erd" | sed -n 's/.*(NEEDED).*\[\(.*\)\]/\1/p' | grep -v '^ld-linux')" \
        libc.so.6
    guarded 'erd for aarch64' "$made/program-aarch64/erd"
    tried 'erd for aarch64' program qemu-aarch64 -L /usr/aarch64-linux-gnu "$PWD/$made/program-aarch64/erd"
    # a pipe that nobody reads
    exec 3> >(true)
    wait $!
    qemu-aarch64 -L /usr/aarch64-linux-gnu "$made/program-aarch64/erd" --help >&3 2> "$work/err"
    status=$?
    exec 3>&-
    : > "$work/out"
    expect_text 'erd for aarch64: a pipe that nobody reads' 3 ''
    equal 'erd for aarch64: its words' "$(cat "$work/err")" 'write failed'
}

of_windows() {
    run packaging/portable/program.sh windows
    expect 'erd.exe' 0
    [ "$status" -eq 0 ] || return
    equal 'erd.exe needs what every Windows has' "$(x86_64-w64-mingw32-objdump -p "$made/program-windows/erd.exe" |
        sed -n 's/.*DLL Name: //p' | sort | tr '\n' ' ')" 'KERNEL32.dll msvcrt.dll '
    equal 'erd.exe has the version' "$(strings -el "$made/program-windows/erd.exe" | grep -A 1 '^ProductVersion$' | tail -n 1)" "$(cat VERSION)"
    guarded_for_windows erd.exe "$made/program-windows/erd.exe"
    equal 'erd.exe has a stack of 8 MiB' "$(x86_64-w64-mingw32-objdump -p "$made/program-windows/erd.exe" | sed -n 's/^SizeOfStackReserve\s*0*//p')" 800000
    begin_wine
    tried erd.exe windows tests/shared/by_wine.sh "$PWD/$made/program-windows/erd.exe"
    told_again erd.exe
}

[ -x erd ] || { echo 'skipped the program for other machines: make erd has not been run'; counts; exit; }
conformance/make
has_all 'erd for aarch64' aarch64-linux-gnu-gcc qemu-aarch64 && of_aarch64
has_all 'erd.exe' x86_64-w64-mingw32-gcc wine && of_windows
counts
