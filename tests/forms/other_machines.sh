#!/usr/bin/env bash
# Makes each form of the library, and compares it with the conformance suite and with the program on random reports and pairs, byte
# for byte: the shared library, that for aarch64 under qemu, the DLL under wine, and erd.wasm in Node. One line a case.
set -u
. "$(dirname "$0")/../shared/start.sh" || exit 1
. tests/shared/commands.sh
. tests/shared/wine.sh
made=out/portable
pairs=${PAIRS:-300}
seed=${SEED:-$RANDOM}

# chosen WORD ..: whether a form with these words in its cases is tried. With cases in CASES, as wrong lines have them, those that no case
# names are left out.
chosen() {
    local word
    [ -n "${CASES:-}" ] || return 0
    for word in "$@"; do
        [[ $CASES != *"$word"* ]] || return 0
    done
    return 1
}

# answers FORM COMMAND ..: compares the answers of a form
answers() {
    local form=$1 log lines
    mkdir -p "$work/$form"
    log=$(python3 tests/forms/compare_form.py ./erd "$work/native" "$pairs" "$seed" "$work/$form" "$@" 2>&1)
    if lines=$(grep -E '^(ok|FAILED) ' <<< "$log"); then
        echo "$lines"
        passed=$((passed + $(grep -c '^ok ' <<< "$lines")))
        failed=$((failed + $(grep -c '^FAILED ' <<< "$lines")))
    else
        said "$form answers" "$(tail -n 3 <<< "$log")"
    fi
}

# exported FORM NAME ..: a form exports the public calls, and nothing else
exported() {
    local form=$1 wanted
    wanted=$(LC_ALL=C sort packaging/portable/exports.txt | tr '\n' ' ')
    shift
    equal "$form exports its public calls alone" "$(printf '%s\n' "$@" | LC_ALL=C sort | tr '\n' ' ')" "$wanted"
}

# dynamic FILE: what a shared library exports
dynamic() {
    readelf --dyn-syms --wide "$1" | awk '$7 != "UND" && $5 == "GLOBAL" { print $8 }'
}

# of_linux PROCESSOR COMPILER RUNNER ..: the shared library for a processor
of_linux() {
    local processor=$1 compiler=$2 folder=$made/linux-$1
    run packaging/portable/linux.sh "$processor"
    expect "the library for $processor" 0
    [ "$status" -eq 0 ] || return
    # shellcheck disable=SC2046
    exported "the library for $processor" $(dynamic "$folder/liberd.so")
    equal "the name in the library for $processor" "$(readelf -d "$folder/liberd.so" | sed -n 's/.*soname: \[\(.*\)\]/\1/p')" liberd.so.0
    guarded "the library for $processor" "$folder/liberd.so"
    equal "what the library for $processor needs" "$(readelf -dW "$folder/liberd.so" | sed -n 's/.*(NEEDED).*\[\(.*\)\]/\1/p' |
        grep -v '^ld-linux' | paste -sd ' ')" libc.so.6
    run "$compiler" -std=c11 -O2 -Wall -Wextra -I"$folder" tests/forms/caller.c -L"$folder" -lerd -o "$work/$processor-caller"
    expect "a caller for $processor" 0
    answers "$processor" "${@:3}" "$work/$processor-caller"
}

of_windows() {
    local folder=$made/windows-x86_64
    run packaging/portable/windows.sh
    expect 'erd.dll' 0
    [ "$status" -eq 0 ] || return
    # shellcheck disable=SC2046
    exported 'erd.dll' $(x86_64-w64-mingw32-objdump -p "$folder/erd.dll" |
        sed -n 's/^\t*\[ *[0-9]*\].* \(erd_[a-z_]*\)$/\1/p')
    guarded_for_windows erd.dll "$folder/erd.dll"
    equal 'erd.dll needs what every Windows has' "$(x86_64-w64-mingw32-objdump -p "$folder/erd.dll" | sed -n 's/.*DLL Name: //p' | sort | paste -sd ' ')" \
        'KERNEL32.dll msvcrt.dll'
    equal 'erd.dll has the version' "$(strings -el "$folder/erd.dll" | grep -A 1 '^ProductVersion$' | tail -n 1)" "$(cat VERSION)"
    cp "$folder/erd.dll" "$work"
    run x86_64-w64-mingw32-gcc -std=c11 -O2 -Wall -Wextra -I"$folder" tests/forms/caller.c "$folder/erd.lib" -o "$work/caller.exe"
    expect 'a caller for Windows' 0
    begin_wine
    answers windows tests/shared/by_wine.sh "$work/caller.exe"
    told_again erd.dll
}

of_wasm() {
    run packaging/portable/wasm.sh
    expect 'erd.wasm' 0
    [ "$status" -eq 0 ] || return
    answers wasm node tests/forms/wasm_caller.mjs "$made/erd.wasm"
    python3 tests/reports/larger.py 33 examples/county.vendor-a.json > "$work/large.json"
    run node tests/forms/wasm_memory.mjs "$made/erd.wasm" "$work/large.json" 200
    expect_text '200 calls on a report of 2 MB take no more memory than the first two, and a call without memory says so' 0 ''
}

equal 'the header has the version' "$(sed -n 's/^#define ERD_VERSION "\(.*\)"$/\1/p' bindings/c/erd.h)" "$(cat VERSION)"
[ -e out/c/liberd.a ] || packaging/library.sh
run "${CC:-cc}" -std=c11 -O2 -Wall -Wextra -Ibindings/c tests/forms/caller.c out/c/liberd.a -o "$work/native"
expect 'a caller of the library of this machine' 0
[ "$status" -eq 0 ] || { counts; exit; }

chosen x86_64 && has_all 'the library for x86_64' readelf && of_linux x86_64 "${CC:-cc}" env LD_LIBRARY_PATH="$made/linux-x86_64"
chosen aarch64 && has_all 'the library for aarch64' aarch64-linux-gnu-gcc qemu-aarch64 &&
    of_linux aarch64 aarch64-linux-gnu-gcc qemu-aarch64 -L /usr/aarch64-linux-gnu -E LD_LIBRARY_PATH="$made/linux-aarch64"
chosen erd.dll Windows windows && has_all 'erd.dll' x86_64-w64-mingw32-gcc wine && of_windows
chosen wasm 'take no more memory' && has_all 'erd.wasm' wasm-opt wasm2wat node && of_wasm

# The profile has the name of the module in front of each function that is not exported. Under another name it finds none of them.
run packaging/portable/module.sh
equal 'the profile knows the proved code by the name of its module' \
    "$(sed -n 's/^source_filename = "\(.*\)"$/\1/p' "$made/parts/proved.ll")" \
    "$(sed -n 's/^\([a-z]*\);.*/\1/p' packaging/profile/erd.proftext | sort -u)"

counts
