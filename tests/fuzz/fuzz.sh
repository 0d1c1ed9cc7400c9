#!/usr/bin/env bash
# Gives the C library random inputs: libFuzzer counts which branches of the proved code each reaches, AddressSanitizer stops at a
# bad access inside that code and at memory that is not freed, and tests/fuzz/checks.c says what has to hold of the answers. With no
# MINUTES it takes 20,000 inputs, always the same in the same order, or as many as it can in a minute, and then tries whether a fault is
# found that is planted in the C side. With MINUTES the inputs are others each time, and those that reached something new are kept in
# out/fuzz/corpus for the next time. An input on which a check fails stays in out/fuzz/findings. Needs Debian's package libclang-rt-22-dev. One line a case.
set -u
. "$(dirname "$0")/../shared/fixed_places.sh" || exit 1
. "$(dirname "$0")/../shared/start.sh" || exit 1
resources=/usr/lib/llvm-22/lib/clang/22
if [ ! -e "$resources/lib/linux/libclang_rt.fuzzer-x86_64.a" ]; then
    echo 'skipped the fuzzer: there is no libclang_rt.fuzzer: install the package libclang-rt-22-dev'
    counts
    exit
fi
packaging/portable/module.sh || { said 'the proved code as a module' 'packaging/portable/module.sh failed'; counts; exit; }
. packaging/portable/common.sh
made=out/fuzz
mkdir -p "$made/findings" "$made/planted-findings"
export REFERENCE='python3 tests/fuzz/answers.py'
export ASAN_OPTIONS=detect_leaks=1:allocator_may_return_null=1:quarantine_size_mb=64
machine=(--target=x86_64-unknown-linux-gnu -resource-dir "$resources" -fsanitize=address)
coverage=-fsanitize-coverage=inline-8bit-counters,pc-table
plain=(-std=c11 -g -O1 -Wall -Wextra "${headers[@]}" -I"$made")

# proved_for_fuzzing: the proved code, in which each function asks for the sanitizer
proved_for_fuzzing() {
    [ "$made/proved.o" -nt "$parts/proved.ll" ] && [ "$made/proved.o" -nt tests/fuzz/fuzz.sh ] && return
    sed -E 's/^(define .*\)[^)]*) (#[0-9]+)/\1 sanitize_address \2/' "$parts/proved.ll" > "$made/proved.ll" &&
        llvm clang "${machine[@]}" "$coverage" -march=x86-64-v2 -O1 -Wno-override-module -x ir -c "$made/proved.ll" \
            -o "$made/proved.new" && mv "$made/proved.new" "$made/proved.o"
}

# built NAME FILE: the fuzzer with this C side of the library
built() {
    local part objects=()
    for part in tree edits inputs reference checks; do
        llvm clang "${machine[@]}" "${plain[@]}" -c "tests/fuzz/$part.c" -o "$made/$part.o" || return
        objects+=("$made/$part.o")
    done
    llvm clang "${machine[@]}" "${plain[@]}" "$coverage" -Ibindings/c -c "$2" -o "$made/calls.o" &&
        (cd "$made" && ar x "$kit/c/liblibc_c.a" heap.pic.o) &&
        llvm clang "${machine[@]}" -fsanitize=fuzzer "${objects[@]}" "$made"/{calls,heap.pic,proved}.o -o "$made/$1"
}

# The gate takes so many inputs, and a machine that needs more than a minute for them, fewer.
bound=()
[ -n "${MINUTES:-}" ] || bound=(-runs=20000)

# tried NAME SECONDS SEED FINDINGS FOLDER ..: the fuzzer on the inputs of the folders and on others. What it says is in
# $made/NAME.log, and an input on which a check failed in the folder $made/FINDINGS.
tried() {
    "$made/$1" -max_total_time="$2" "${bound[@]}" -seed="$3" -max_len=16384 -timeout=300 -rss_limit_mb=8192 -print_final_stats=1 \
        -artifact_prefix="$made/$4/" "${@:5}" > "$made/$1.log" 2>&1
}

# finding NAME: what the fuzzer found
finding() {
    local words kept
    words=$(grep -m 1 -aoE 'BROKEN: .*|ERROR: (AddressSanitizer|LeakSanitizer|libFuzzer): [^(]*|^fuzz: .*' "$made/$1.log")
    kept=$(grep -aoE "$made/[a-z-]+/[a-z]+-[0-9a-f]+" "$made/$1.log" | tail -n 1)
    echo "${words:-it ended with: $(tail -n 2 "$made/$1.log")}${kept:+; the input is $kept}"
}

{ conformance/make && python3 tests/fuzz/inputs.py "$made" && proved_for_fuzzing && built fuzz bindings/c/erd.c; } > "$made/build.log" 2>&1
status=$?
said 'the library and its fuzzer' "$([ "$status" -eq 0 ] || last_words "$made/build.log")"
[ "$status" -eq 0 ] || { counts; exit; }

corpus=$made/corpus
seed=${SEED:-$RANDOM$RANDOM}
seconds=$((${MINUTES:-1} * 60))
if [ -z "${MINUTES:-}" ]; then
    corpus=$made/corpus-of-the-gate
    rm -rf "$corpus"
    seed=1
fi
mkdir -p "$corpus"
tried fuzz "$seconds" "$seed" findings "$corpus" "$made/seeds"
status=$?
runs=$(sed -n 's/^stat::number_of_executed_units: *//p' "$made/fuzz.log")
reached=$(grep -aoE 'cov: [0-9]+' "$made/fuzz.log" | tail -n 1)
said "${runs:-no} inputs in at most $seconds seconds with the seed $seed, ${reached:-cov: 0}" "$([ "$status" -eq 0 ] || finding fuzz)"
said 'they reach the proved code' "$([ "${reached#cov: }" -gt 3000 ] 2> /dev/null || echo "${reached:-nothing}")"

# A fuzzer that finds nothing may be one that looks at nothing.
if [ -z "${MINUTES:-}" ]; then
    : > "$made/planted.log"
    python3 tests/fuzz/planted.py exchanges_the_sides > "$made/planted.c"
    built planted "$made/planted.c" >> "$made/build.log" 2>&1 && tried planted 20 1 planted-findings "$made/seeds"
    status=$?
    said "a planted fault: $(finding planted)" "$(grep -aq 'BROKEN: compare' "$made/planted.log" || echo "status $status")"
fi
counts
