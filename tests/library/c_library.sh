#!/usr/bin/env bash
# Builds the C library and calls it from C and from Python: the conformance suite, under the sanitizers that the compiler
# has, and texts that are longer than the first room for them. One line a case.
set -u
. "$(dirname "$0")/../shared/fixed_places.sh" || exit 1
. "$(dirname "$0")/../shared/start.sh" || exit 1
. tests/shared/erd_answers.sh
compiler=${CC:-cc}
one=examples/one-unit.json
canonical=examples/one-unit.canonical.json
small=examples/small-ballot.json
: > "$work/empty"
callers=$work/callers
mkdir "$callers"

# chosen CASE: whether the costly part with this case is tried. With cases in CASES, one a line, only the parts that they name are.
chosen() {
    [[ -z ${CASES:-} || $'\n'$CASES$'\n' == *$'\n'"$1"$'\n'* ]]
}

# tests/bodies/by_scripts.py makes a library of its own, and says so.
if [ -z "${LIBRARY_IS_MADE:-}" ]; then
    make --no-print-directory library > "$work/out" 2> "$work/err"
    status=$?
    said 'make library' "$([ "$status" -eq 0 ] || last_words "$work/err")"
    [ "$status" -eq 0 ] || { counts; exit; }
fi

exported=$(nm -g --defined-only out/c/liberd.a 2> /dev/null | awk '$2 == "T" && $3 !~ /^(rattle_|erd_tell_)/ { print $3 }' | LC_ALL=C sort | tr '\n' ' ')
said 'it exports its public calls' "$([ "$exported" = "$(LC_ALL=C sort packaging/portable/exports.txt | tr '\n' ' ')" ] || echo "it exports $exported")"

# built NAME FLAG ..: the caller in C as $callers/NAME
built() {
    local name=$1
    shift
    "$compiler" -std=c11 -g -O1 -Wall -Wextra "$@" -o "$callers/$name" tests/library/caller.c bindings/c/erd.c out/c/liberd.a \
        -lpthread 2> "$work/err"
}

# has FLAG ..: whether the compiler has these sanitizers, and what it builds with them runs here
has() {
    "$compiler" -x c - "$@" -o "$work/nothing" <<< 'int main(void) { return 0; }' 2> /dev/null && "$work/nothing" 2> /dev/null
}

"$compiler" -std=c11 -Wall -Wextra -o "$callers/archive" tests/library/caller.c out/c/liberd.a -lpthread 2> "$work/err"
said 'a caller in C that links the archive alone' "$([ $? -eq 0 ] || last_words "$work/err")"
"$callers/archive" odd "$one" > "$work/out" 2> "$work/err"
status=$?
expect 'unusual arguments, with the archive alone' 0 "$work/empty" ''
built plain
said 'a caller in C' "$([ $? -eq 0 ] || last_words "$work/err")"
if "$compiler" -x c++ -fsyntax-only - < /dev/null 2> /dev/null; then
    "$compiler" -std=c++11 -x c++ -fsyntax-only - <<< '#include "bindings/c/erd.h"' 2> "$work/err"
    said 'the header is C++ too' "$(head -n 3 "$work/err")"
fi

# The suite, under AddressSanitizer where there is one: it stops at a bad access and, at the end, at memory that was not
# freed. The C side is compiled with it too.
erd=$callers/plain
sanitizers=()
export ASAN_OPTIONS=detect_leaks=1:allocator_may_return_null=1 UBSAN_OPTIONS=halt_on_error=1
if has -fsanitize=address,undefined; then
    sanitizers=(-fsanitize=address,undefined)
    built address -fsanitize=address,undefined
    said 'a caller in C under AddressSanitizer' "$([ $? -eq 0 ] || last_words "$work/err")"
    erd=$callers/address
    "$compiler" -x c "${sanitizers[@]}" -o "$work/leaks" - <<< '#include <stdlib.h>
int main(void) { return malloc(16) == NULL; }' 2> "$work/err"
    "$work/leaks" > "$work/out" 2>> "$work/err"
    said 'memory that is not freed is noticed' "$(grep -q 'LeakSanitizer: detected memory leaks' "$work/err" || last_words "$work/err")"
else
    echo "skipped AddressSanitizer: the compiler has none, or it doesn't run here"
fi
"$compiler" -std=c11 -g -O1 -Wall -Wextra "${sanitizers[@]}" -o "$callers/loop" tests/library/c_side_alone.c 2> "$work/err" \
    && "$callers/loop" > "$work/out" 2> "$work/err"
status=$?
said "the C side alone: $(tail -n 1 "$work/out")" "$([ "$status" -eq 0 ] || last_words "$work/out" "$work/err")"
CC=$compiler tests/library/lists_alone.sh "${sanitizers[@]}" > "$work/out" 2> "$work/err"
status=$?
said "what it keeps of lists: $(tail -n 1 "$work/out")" "$([ "$status" -eq 0 ] || last_words "$work/out" "$work/err")"
if chosen 'the conformance suite'; then
    conformance/run "$erd" > "$work/suite" 2>&1
    status=$?
    said "the conformance suite: $(tail -n 1 "$work/suite")" "$([ "$status" -eq 0 ] || last_words "$work/suite")"
fi

"$erd" odd "$one" > "$work/out" 2> "$work/err"
status=$?
expect 'unusual arguments' 0 "$work/empty" ''
call line erd compare --prefer 'two "words"' a -- -b
expect_text 'the words of a request' 1 '{"command":"compare","files":["a","-b"],"json":false,"prefer":"two \"words\""}' ''
call line erd nosuch
expect_text 'wrong words' 3 '' $'error: unrecognized subcommand \'nosuch\'\n\nUsage: erd [COMMAND]\n\nFor more information, try \'--help\'.\n'
call line erd check $'\xff'
expect_text 'words that are no text' 3 '' $'the arguments are not text\n'
call line erd help help
expect_text 'words that ask for help' 0 \
    $'Print this message or the help of the given subcommand(s)\n\nUsage: erd help [COMMAND]...\n\nArguments:\n  [COMMAND]...  Print help for the subcommand(s)\n' ''
for vendor in a b; do
    call canon "examples/county.vendor-$vendor.json"
    expect "the county by vendor $vendor" 0 examples/county.canonical.json ''
done
# Texts that are longer than the room of the first call, or just fit it: lines as the reference program writes them.
mkdir "$work/long"
python3 tests/library/long_lines.py "$one" "$work/long"
for file in "$work"/long/*.json; do
    name=$(basename "$file" .json)
    python3 reference/erd_reference.py check "$file" > "$work/lines"
    call check "$file"
    expect "$name: check" 1 "$work/lines" ''
    call canon "$file"
    expect_text "$name: canon" 1 '' "$(cat "$work/lines")"$'\n'
    call compare "$one" "$file"
    sed 's/^/right: /' "$work/lines" > "$work/side"
    expect "$name: compare" 1 "$work/side" ''
    call check-data "$file"
    expect "$name: check-data" 1 "${file%.json}.data" ''
    call compare-data "$file" "$one"
    printf '{"faults":%s,"refused":"left"}' "$(cat "${file%.json}.data")" > "$work/side"
    expect "$name: compare-data" 1 "$work/side" ''
done
"$erd" threads examples/county.vendor-a.json > "$work/out" 2> "$work/err"
status=$?
expect 'several threads' 0 "$work/empty" ''
if has -fsanitize=thread; then
    built thread -fsanitize=thread && "$callers/thread" threads examples/county.vendor-b.json > "$work/out" 2> "$work/err"
    status=$?
    expect 'several threads under ThreadSanitizer' 0 "$work/empty" ''
else
    echo "skipped several threads under ThreadSanitizer: the compiler has none, or it doesn't run here"
fi

# Each request for memory is refused in turn, until a run makes fewer: the library returns the right answer, or is out of memory
# and returns no text. Status 9 is the caller's own: it has no memory to read the files.
"$compiler" -O2 -shared -fPIC -o "$work/refuse.so" tests/shared/refuse.c -ldl
refused() {
    local at refusals=0 wanted why=''
    chosen "memory refused: $1" || return
    "$callers/plain" "$@" > "$work/wanted_out" 2> "$work/wanted_err"
    wanted=$?
    for ((at = 1; at <= 20000; at++)); do
        rm -f "$work/log"
        REFUSE_AT=$at REFUSE_LOG=$work/log LD_PRELOAD=$work/refuse.so "$callers/plain" "$@" > "$work/out" 2> "$work/err"
        status=$?
        [ "$status" -eq "$wanted" ] && cmp -s "$work/out" "$work/wanted_out" && cmp -s "$work/err" "$work/wanted_err"
        local differs=$?
        [ -e "$work/log" ] || break
        refusals=$((refusals + 1))
        [ "$differs" -eq 0 ] && continue
        [[ $status =~ ^[49]$ ]] && [ ! -s "$work/out" ] && [ ! -s "$work/err" ] && continue
        why+="status $status at request $at; "
        break
    done
    [ "$differs" -eq 0 ] || why+='no right answer without a refusal; '
    [ "$refusals" -gt 10 ] || why+="$refusals refusals"
    said "memory refused: $1: $refusals refusals" "$why"
}
refused canon "$small"
refused check "$small"
refused compare "$one" "$small"
refused check-data "$work/long/hundred-lines.json"
refused compare-data "$one" "$small"
sed 's/"IsWriteIn":true/&,"SequenceOrder":2/; s/"CandidateIds":\["a7"\]/&,"Note":1/; s/"BallotName":"Cy"/"BallotName":"Cyd"/' "$small" > "$work/selections.json"
refused differences "$small" "$work/selections.json"
refused differences-data "$small" "$work/selections.json"
refused differences-values "$small" "$work/selections.json"
refused line erd compare --prefer local-level "$one" "$small"
refused line erd check --help
refused line erd nosuch

# From Python, on the examples, with and without a preference: what the caller in C is told.
"$compiler" -shared -o "$work/liberd.so" -Wl,--whole-archive out/c/liberd.a -Wl,--no-whole-archive 2> "$work/err"
said 'a shared library' "$(head -n 3 "$work/err")"
: > "$work/cases"
: > "$work/wanted_lines"
# asked COMMAND PREFER FILE ..: a case for Python, with what the caller in C answers
asked() {
    local command=$1 prefer=$2
    shift 2
    (IFS=$'\t'; printf '%s\n' "$command"$'\t'"$prefer"$'\t'"$*") >> "$work/cases"
    call "$command" ${prefer:+--prefer "$prefer"} "$@"
    printf '%s %s\n' "$status" "$(cat "$work/out" "$work/err" | python3 -c 'import json, sys
print(json.dumps(sys.stdin.buffer.read().decode(), ensure_ascii=False))')" >> "$work/wanted_lines"
}
if chosen 'calls from Python, with those for data'; then
    for prefer in '' local-level fips; do
        for file in examples/*.json "$work"/long/*.json README.md; do
            asked check "$prefer" "$file"
            asked canon "$prefer" "$file"
            asked compare "$prefer" "$one" "$file"
        done
    done
    python3 tests/library/by_ctypes.py "$work/liberd.so" "$work/cases" > "$work/found_lines" 2> "$work/err"
    said "calls from Python, with those for data: $(wc -l < "$work/cases")" \
        "$(diff "$work/wanted_lines" "$work/found_lines" 2>&1 | head -c 300; tail -n 2 "$work/err")"
fi
if chosen 'the conformance suite, in lines and as data'; then
    python3 tests/library/suite_by_ctypes.py "$work/liberd.so" > "$work/out" 2> "$work/err"
    status=$?
    said "the conformance suite, in lines and as data: $(tail -n 1 "$work/out")" \
        "$([ "$status" -eq 0 ] || last_words "$work/out" "$work/err")"
fi

counts
