#!/usr/bin/env bash
# Refuses each request of memory in turn, in the built program and in built tests, until a run meets no refusal.
# Each run must end right, or out of memory and with nothing else written. One line a case. `make test` leaves the program and
# the tests; so do `make erd` and, in crates/erd_rows, `rt test`.
set -u
. "$(dirname "$0")/../shared/start.sh" || exit 1
tests=crates/erd_rows/out/erd_rows_tests
for file in ./erd "$tests"; do
    [ -x "$file" ] || { echo "refusals: $file is missing" >&2; exit 1; }
done
most=20000

"${CC:-cc}" -O2 -shared -fPIC -o "$work/refuse.so" tests/shared/refuse.c -ldl || exit 1

# refusing N COMMAND ..: the command with its request N refused; $work/log stands where one was
refusing() {
    local at=$1
    shift
    rm -f "$work/log"
    REFUSE_AT=$at REFUSE_LOG=$work/log LD_PRELOAD=$work/refuse.so "$@"
}

# Whether the last run of the program ended out of memory, and wrote nothing.
is_memory() {
    [ "$status" -eq 4 ] && [ ! -s "$work/out" ] && [ "$(cat "$work/err")" = 'no memory' ]
}

# program NAME INPUT STATUS OUT ERR [WORD ..]
program() {
    local name=$1 input=$2 wanted=$3 out=$4 err=$5 refusals=0 at
    shift 5
    printf '%s' "$err" > "$work/wanted"
    for ((at = 1; at <= most; at++)); do
        refusing "$at" ./erd "$@" < "$input" > "$work/out" 2> "$work/err"
        status=$?
        local right=no
        [ "$status" -eq "$wanted" ] && cmp -s "$work/out" "$out" && cmp -s "$work/err" "$work/wanted" && right=yes
        if [ ! -e "$work/log" ]; then
            [ "$right" = yes ] && [ "$refusals" -gt 0 ] && break
            said "$name" "status $status with no refusal, after $refusals"
            return
        fi
        refusals=$((refusals + 1))
        if [ "$right" = no ] && ! is_memory; then
            said "$name" "status $status at refusal $at"
            return
        fi
    done
    said "$name ($refusals refusals)" "$([ "$at" -le "$most" ] || echo 'no end')"
}

# one_test NAME: a built test, which says itself what is refused, and passes if each call returns the right answer or is out
# of memory
one_test() {
    local name=$1 refusals=0 why=''
    rm -f "$work/log"
    REFUSE_LOG=$work/log LD_PRELOAD=$work/refuse.so "$tests" "tests::$name" > "$work/out" 2>&1 || why=$(tail -n 5 "$work/out")
    [ -e "$work/log" ] && refusals=$(wc -l < "$work/log")
    [ "$refusals" -gt 0 ] || why+='nothing was refused'
    said "$name ($refusals refusals)" "$why"
}

: > "$work/empty"
program 'a report with one unit' examples/one-unit.json 0 examples/one-unit.canonical.json ''
program 'a small ballot' examples/small-ballot.json 0 examples/small-ballot.canonical.json ''
sed 's/"Value":"U2"/"Value":"U1"/' examples/small-ballot.json > "$work/twins"
program 'a refused report' "$work/twins" 1 "$work/empty" $'/GpUnit/1: identifier used twice\n'
program 'no JSON' tests/shared/refuse.c 2 "$work/empty" $'not JSON\n'
printf 'accepted\n' > "$work/accepted"
program 'a check' "$work/empty" 0 "$work/accepted" '' check examples/small-ballot.json
program 'a file that is not there' "$work/empty" 3 "$work/empty" $'cannot open\nnosuch\n' canon nosuch
printf 'same\n' > "$work/same"
program 'a comparison' "$work/empty" 0 "$work/same" '' compare examples/one-unit.json examples/one-unit.canonical.json
program 'a comparison of a report with itself' "$work/empty" 0 "$work/same" '' compare examples/one-unit.json examples/one-unit.json
program 'a comparison under a preference' "$work/empty" 0 "$work/same" '' \
    compare --prefer local-level examples/one-unit.json examples/one-unit.canonical.json
mkdir "$work/many" && python3 tests/reports/many_objects.py "$work/many" 20 || exit 1
for name in many_units many_units_turned_round many_selections many_references many_elections; do
    program "$name, made small" "$work/many/$name.json" 0 "$work/many/$name.canonical" ''
done
program 'a comparison of many units, made small' "$work/empty" 0 "$work/same" '' \
    compare "$work/many/many_units.json" "$work/many/many_units_turned_round.json"
sed 's/"Name":"Blue"/"Name":"Green"/; s/"Bo"/"Bob"/' examples/small-ballot.json > "$work/changed"
printf 'party ["local-level","","P1"]: member "Name"\ncandidate ["local-level","","K2"]: member "BallotName"\n' > "$work/found"
program 'all differences' "$work/empty" 1 "$work/found" '' differences examples/small-ballot.json "$work/changed"
printf '[]\n' > "$work/none"
program 'a check as JSON' "$work/empty" 0 "$work/none" '' check --json examples/small-ballot.json
printf 'null\n' > "$work/null"
program 'a comparison as JSON' "$work/empty" 0 "$work/null" '' compare --json examples/one-unit.json examples/one-unit.canonical.json
program 'no differences as JSON' "$work/empty" 0 "$work/none" '' differences --json examples/one-unit.json examples/one-unit.canonical.json
sed 's/"Status"/"Notes":null,&/' examples/one-unit.canonical.json > "$work/nulled"
program 'a prepared report' "$work/empty" 0 examples/one-unit.canonical.json $'nulls: 1 changed\n' prepare --steps nulls "$work/nulled"
printf 'nulls (removed): 1 changed\n' > "$work/listed"
program 'what each step would do' "$work/empty" 0 "$work/listed" '' prepare --list "$work/nulled"
program 'an unknown step' "$work/empty" 3 "$work/empty" $'unknown step\n' prepare --steps nulls,nosuch "$work/nulled"
printf 'ballot ["local-level","","S1"]: 3 lines\n' > "$work/ballots"
program 'ballots' "$work/empty" 0 "$work/ballots" '' ballots examples/small-ballot.json
printf 'ballot ["local-level","","S1"]: differs\n  changed contest ["local-level","","C1"]\n' > "$work/differs"
program 'a ballot with other words' "$work/empty" 1 "$work/differs" '' ballots examples/small-ballot.json "$work/changed"
for name in \
    worked::refused_two_vendors \
    worked::refused_shape \
    worked::refused_later_phases \
    worked::refused_difference \
    worked::refused_preferences \
    worked::refused_elections \
    parts::refused_pointer \
    parts::refused_push_fault \
    parts::refused_keys \
    parts::refused_order \
    parts::refused_values \
    command_lines::refused_lines \
    help_texts::refused_help_and_usage \
    program::refused_rows \
    program::refused_later_rows \
    program::refused_help_and_usage; do
    one_test "$name"
done

counts
