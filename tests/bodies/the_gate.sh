#!/usr/bin/env bash
# Tries parts of the gate with an `rt` that only says what a real one says. tests/prove.sh runs once more where the prover lost a file,
# and where anything else failed it doesn't; on few processors it has two crates proved beside each other. Another build of the kit with the
# same logic is told, and another logic is a failure. tests/gate_parts.sh runs small parts. packaging/room.sh is told what is free, and
# packaging/needed.sh which tools are wanted. tests/pages/gate_times.py has the seconds of runs at other paces. One line a case.
set -u
. "$(dirname "$0")/../shared/start.sh" || exit 1
. tests/shared/commands.sh
mkdir "$work/bin"
cat > "$work/bin/rt" <<'END'
#!/bin/sh
[ "$1" = ci ] || exec echo "$KIT"
run=$(($(cat "$WORDS/runs" 2> /dev/null || echo 0) + 1))
echo "$run" > "$WORDS/runs"
echo "${RT_JOBS:-none}" > "$WORDS/jobs"
cat "$WORDS/$run"
grep -q ' 0 failed$' "$WORDS/$run"
END
chmod +x "$work/bin/rt"
lost='error: the crate `erd_meaning` is proved, but antt could not write its statements (erd_meaning has no checked file in this check)'
below='rt: erd_normal NOT PROVED: its library erd_meaning failed'

# tried NAME RUNS STATUS LINES: what the first run says, and how often `rt` runs then
tried() {
    export WORDS=$work/$passed-$failed
    mkdir "$WORDS"
    printf '%s\n' "$4" > "$WORDS/1"
    printf '%s\n' 'rt: erd_meaning proved' '3 passed, 0 failed' > "$WORDS/2"
    PATH=$work/bin:$PATH run tests/prove.sh
    said "$1" "$([ "$(cat "$WORDS/runs")" -eq "$2" ] || echo "$(cat "$WORDS/runs") runs"
        [ "$status" -eq "$3" ] || echo "status $status"
        [ "$(grep -c '^again: ' "$work/out")" -eq $(($2 - 1)) ] || echo 'it does not say so'
        [ "$(tail -n 1 "$work/out")" = "$(tail -n 1 "$WORDS/$2")" ] || echo 'other counts')"
}

tried 'a run that passes' 1 0 '3 passed, 0 failed'
tried 'a lost file' 2 0 "$lost"$'\nrt: erd_meaning NOT PROVED\n'"$below"$'\n1 passed, 2 failed'
tried 'a goal that is open' 1 1 $'rt: erd_meaning NOT PROVED\n'"$below"$'\n1 passed, 2 failed'
tried 'a lost file, and a goal that is open in another crate' 1 1 \
    "$lost"$'\nrt: erd_meaning NOT PROVED\nrt: erd_index NOT PROVED\n'"$below"$'\n0 passed, 3 failed'
tried 'a lost file, and tests that fail' 1 1 "$lost"$'\nrt: erd_meaning NOT PROVED\nrt: erd_rows: its tests FAILED\n0 passed, 3 failed'
tried 'another file that could not be written' 1 1 \
    'error: the crate `erd_meaning` is proved, but antt could not write its statements (the disk is full)'$'\nrt: erd_meaning NOT PROVED\n1 passed, 2 failed'

# beside NAME PROCESSORS MEMORY CRATES: how many crates it has proved beside each other
beside() {
    echo '3 passed, 0 failed' > "$WORDS/1"
    rm -f "$WORDS/runs"
    PATH=$work/bin:$PATH run env -u RT_JOBS tests/prove.sh "$2" "$3"
    equal "$1" "$(cat "$WORDS/jobs")" "$4"
}

beside 'two processors, and memory for two crates' 2 20000 2
beside 'three processors' 3 20000 2
beside 'less memory' 2 19999 none
beside 'one processor' 1 20000 none
beside 'four processors' 4 20000 none

# kit NAME STATUS NOTICES: what tests/pages/facts_and_links.py says of the kit $KIT
kit() {
    export KIT
    PATH=$work/bin:$PATH run python3 tests/pages/facts_and_links.py
    said "$1" "$([ "$status" -eq "$2" ] || echo "status $status; $(grep FAILED "$work/out")"
        [ "$(grep -c '^notice: ' "$work/out")" -eq "$3" ] || echo 'other notices'
        [ "$(grep -c '^FAILED  the logic of the kit' "$work/out")" -eq "$2" ] || echo 'other failures')"
}

named=$(sed -n 's/.*proved with `\(.*\)`.*/\1/p' README.md)
KIT=$named kit 'the kit of the README' 0 0
KIT="rattle-kit-1z logic ${named##* }" kit 'another letter, and the same logic' 0 1
KIT="${named% *} 0123456789abcdef" kit 'the same letter, and another logic' 1 0
KIT='' kit 'a kit that does not say what it is' 1 0

# room NAME MEMORY DISK NOTICES
room() {
    equal "$1" "$(packaging/room.sh "$2" "$3" | cut -d : -f 1-3)" "${4:-none}"
}

room 'too little memory' 7199 5700 'notice: memory, for the largest proof: 7.1 GB are free, and 7.2 GB are needed'
room 'too little disk' 7200 5699 'notice: disk, for the proofs that are kept: 5.6 GB are free, and 5.7 GB are needed'
said 'enough of both' "$(packaging/room.sh 7200 5700)"

# Where a tool is missing nothing is made, and it is said where the tool comes from.
for row in "nosuch in Debian's package nosuch" "dpkg-nosuch in Debian's package dpkg-nosuch"; do
    run packaging/needed.sh sh "${row%% *}" cat
    expect "a tool that is missing, ${row%% *}" 1
    equal "it is named, ${row%% *}" "$(cat "$work/err")" "make: there is no ${row%% *}, which is ${row#* }"
done
run env PATH="$work/none" "$BASH" packaging/needed.sh cmp
equal 'the package that has a tool of another name' "$(cat "$work/err")" "make: there is no cmp, which is in Debian's package diffutils"
run packaging/needed.sh sh cat
expect 'tools that are there' 0
said 'nothing is said of these' "$(cat "$work/out" "$work/err")"

# A gate of small parts, in a folder of its own: the proof ends when the file `go` is there, a part is lost when it ends its lane, one
# gives no counts, and one waits for a part that is lost.
mkdir -p "$work/gate/tests/shared"
cp tests/shared/counting.sh "$work/gate/tests/shared"
cp tests/gate_parts.sh "$work/gate/tests"
part() {
    printf '#!/bin/bash\n%s\n' "$2" > "$work/gate/$1" && chmod +x "$work/gate/$1"
}
part prove 'echo "rt: low proved"; until [ -e go ]; do sleep 0.1; done; echo "2 passed, 0 failed"'
part good 'echo "ok      one"; echo "skipped two: there is no tool"; echo "1 passed, 0 failed"'
part bad 'echo "FAILED  three: why"; echo "0 passed, 1 failed"; exit 1'
part mute 'echo words'
# The proof ends when the failed part has been told, or after a minute.
part last 'for _ in {1..600}; do grep -q "bad: 0 passed" said && break; sleep 0.1; done; touch go; echo "notice: a word"; echo "1 passed, 0 failed"'
part never 'echo "1 passed, 0 failed"'
cat > "$work/gate/gate.sh" << 'END'
set -u
. tests/shared/counting.sh
. tests/gate_parts.sh
stop() { return 1; }
first './good' './bad'
proof './prove'
lane './mute' 'ended: ./bad' './last'
between 'stop: here' './never'
await
sum_up
END
(cd "$work/gate" && bash gate.sh > said 2>&1)
status=$?
tell=$work/gate/said
equal 'a gate of small parts: the counts' "$status $(tail -n 1 "$tell")" '1 4 passed, 3 failed'
equal 'a failure is told before the proof ends' "$(grep -n -m 1 'FAILED  three' "$tell" | cut -d : -f 2-) $(grep -c '^2 passed' "$tell")" './bad: FAILED  three: why 1'
said 'and so is its part' "$(awk '/^[0-9]+:[0-9][0-9]  \.\/bad: 0 passed, 1 failed$/ { told = 1 } /^2 passed, 0 failed$/ && told { exit found = 1 } END { if (!found) print "not before" }' "$tell")"
equal 'the end tells it again behind the costs, and what was skipped' "$(sed '1,/^What each/d' "$tell" | sed '1,/^What failed/d' | grep -c 'FAILED  three\|skipped two\|notice: a word')" 3
equal 'a part without counts' "$(grep -c '^\./mute: gave no counts$' "$tell")" 1
equal 'a part that was not run' "$(grep -c '^\./never: was not run$' "$tell")" 1
equal 'what a part said' "$(head -n 1 "$work/gate/out/gate/._good")" 'ok      one'

# The seconds of a run against those of a table, in a folder of its own, at the pace of the run.
mkdir -p "$work/table/tests/pages" "$work/table/tests/shared" "$work/table/out"
cp tests/pages/gate_times.py tests/pages/repository.py "$work/table/tests/pages"
cp tests/shared/cases.py "$work/table/tests/shared"
echo "first 'tests/long.sh' 'python3 tests/measures/pace.py'" > "$work/table/tests/gate.sh"
echo 'make test # tests: about 9 minutes on 2 idle cores' > "$work/table/README.md"
cat > "$work/table/CONTRIBUTING.md" << 'END'
`make test` proves everything and runs all tests. It takes about 9 minutes on two processors.

| Part | Processor seconds |
|---|--:|
| `tests/long.sh` | 1,000 |
| `tests/bodies/try_wrong.py --gate CRATE` | 100 |
| `tests/measures/pace.py`, twice | 10 |

END
# seconds NAME PACE LONG EDITS FAILED: what the same work took in a run, in two times, the long part and the wrong bodies, and how many fail
seconds() {
    printf '%s\t%s\n' $(($2 / 2)) 'python3 tests/measures/pace.py' "$3" tests/long.sh "$4" 'tests/bodies/try_wrong.py --gate erd_low' \
        $(($2 / 2)) 'python3 tests/measures/pace.py' > "$work/table/out/gate-costs"
    equal "$1" "$(python3 "$work/table/tests/pages/gate_times.py" | tail -n 1)" "$((6 - $5)) passed, $5 failed"
}
seconds 'the seconds of the table' 10 1000 100 0
seconds 'those of a machine that takes twice as long' 20 2000 200 0
seconds 'a part that takes twice as long there' 20 4000 200 1
seconds 'each part takes twice as long on the same machine' 10 2000 200 2
seconds 'a part that takes half as long' 10 500 100 1
python3 "$work/table/tests/pages/gate_times.py" --write
equal 'the seconds that are written' "$(grep -c '^| .* | 500 |$\|^| .* | 100 |$\|^| .*, twice | 10 |$' "$work/table/CONTRIBUTING.md")" 3
counts
