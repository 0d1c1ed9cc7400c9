#!/usr/bin/env bash
# Runs the built program where the system gives no more: limits on the size of files, on memory and on the stack, pipes whose
# readers go away, descriptors of the wrong kind, and an old processor. One line a case. Full devices and closed descriptors are in
# command_files.sh.
set -u
. "$(dirname "$0")/../shared/start.sh" || exit 1
erd=$PWD/erd
one=examples/one-unit.json
canonical=examples/one-unit.canonical.json
small=examples/small-ballot.json
small_canonical=examples/small-ballot.canonical.json

# ended NAME STATUS ERR: the last run ended so, by $status and $work/err; WHY holds what else is wrong
ended() {
    [ "$status" -eq "$2" ] || why+="status $status, not $2; "
    printf '%s' "$3" | cmp -s - "$work/err" || why+="standard error '$(head -c 200 "$work/err")'; "
    said "$1" "$why"
    why=''
}
why=''

# is_front FILE WHOLE SIZE: the file holds the first SIZE bytes of WHOLE
is_front() {
    head -c "$3" "$2" | cmp -s - "$1" || why+="$(wc -c < "$1") bytes were written, or others; "
}

# Reports with much output: more than 100,000 bytes of a canonical form, and of fault lines.
mkdir "$work/many"
python3 tests/reports/many_objects.py "$work/many" || exit 1
many=$work/many/many_units
sed 's/"Type": /"Sort": /g' "$many.json" > "$work/faulty"
"$erd" check "$work/faulty" > "$work/lines"
for file in "$work/lines" "$many.canonical"; do
    [ "$(wc -c < "$file")" -gt 100000 ] || why+="$file is short; "
done

# A file may grow to 64 kB. The system tells so by a signal, which ends the program unless it is ignored.
(trap '' XFSZ; ulimit -f 64; exec "$erd" canon "$many.json" > "$work/out" 2> "$work/err")
status=$?
is_front "$work/out" "$many.canonical" 65536
ended 'a limit on the size of files, for a canonical form' 3 $'write failed\n'
(trap '' XFSZ; ulimit -f 64; exec "$erd" check "$work/faulty" > "$work/out" 2> "$work/err")
status=$?
is_front "$work/out" "$work/lines" 65536
ended 'a limit on the size of files, for fault lines' 3 $'write failed\n'
(trap '' XFSZ; ulimit -f 0; exec "$erd" compare "$small" "$small_canonical" 2>&1 > "$work/out") | cat > "$work/err"
status=${PIPESTATUS[0]}
is_front "$work/out" "$small" 0
ended 'a limit on the size of files, for a comparison' 3 $'write failed\n'
(ulimit -f 64 -c 0; env --default-signal=XFSZ "$erd" canon "$many.json" > "$work/out" 2> "$work/err"; exit $?) 2> /dev/null
status=$?
is_front "$work/out" "$many.canonical" 65536
ended 'a limit on the size of files whose signal is not ignored' $((128 + $(kill -l XFSZ))) ''

# The reader of a pipe goes away after some bytes.
"$erd" canon "$many.json" 2> "$work/err" | head -c 5 > "$work/out"
status=${PIPESTATUS[0]}
is_front "$work/out" "$many.canonical" 5
ended 'a pipe whose reader goes away, for a canonical form' 3 $'write failed\n'
"$erd" check "$work/faulty" 2> "$work/err" | head -c 5 > "$work/out"
status=${PIPESTATUS[0]}
is_front "$work/out" "$work/lines" 5
ended 'a pipe whose reader goes away, for fault lines' 3 $'write failed\n'
"$erd" canon "$work/faulty" 2>&1 > "$work/out" | head -c 5 > "$work/err"
status=${PIPESTATUS[0]}
is_front "$work/err" "$work/lines" 5
is_front "$work/out" "$work/lines" 0
ended 'a pipe whose reader goes away, as standard error' 3 "$(head -c 5 "$work/lines")"

# Descriptors of the wrong kind, and a file that can be opened and not read.
"$erd" 0> "$work/sink" > "$work/out" 2> "$work/err"
status=$?
is_front "$work/out" "$one" 0
ended 'standard input that is open for writing alone' 3 $'read failed\n'
"$erd" < "$one" 1< "$one" 2> "$work/err"
status=$?
ended 'standard output that is open for reading alone' 3 $'write failed\n'
unread=/proc/self/mem
for words in "check $unread" "canon $unread" "compare $unread $one" "compare $one $unread"; do
    # shellcheck disable=SC2086
    "$erd" $words > "$work/out" 2> "$work/err"
    status=$?
    is_front "$work/out" "$one" 0
    ended "a file whose first read fails: ${words/$unread/FILE}" 3 $'read failed\n'
done

# What a program may map in all, 64 kB more each time, from the first that the system can load the program in, until three runs
# in a row have ended rightly. Each run ends out of memory or rightly.
memory() {
    local name=$1 wanted=$2 size=0 refusals=0 right=0
    shift 2
    until (ulimit -v $size; LD_TRACE_LOADED_OBJECTS=1 "$erd"; exit $?) > /dev/null 2>&1; do
        size=$((size + 64))
    done
    while [ "$right" -lt 3 ] && [ "$refusals" -lt 5000 ]; do
        (ulimit -v $size; "$erd" "$@" > "$work/out" 2> "$work/err"; exit $?) 2> /dev/null
        status=$?
        if [ "$status" -eq 0 ] && cmp -s "$work/out" "$wanted" && [ ! -s "$work/err" ]; then
            right=$((right + 1))
        elif [ "$status" -eq 4 ] && [ ! -s "$work/out" ] && [ "$(cat "$work/err")" = 'no memory' ]; then
            right=0 refusals=$((refusals + 1))
        else
            why+="status $status where $size kB may be mapped; "
            break
        fi
        size=$((size + 64))
    done
    [ "$refusals" -gt 0 ] || why+='it was never out of memory; '
    [ "$right" -eq 3 ] || why+='no end; '
    said "$name ($refusals limits too small)" "$why"
    why=''
}

echo accepted > "$work/accepted"
echo same > "$work/same"
memory 'a limit on memory, for a canonical form' "$many.canonical" canon "$many.json"
memory 'a limit on memory, for a check' "$work/accepted" check "$many.json"
memory 'a limit on memory, for a comparison' "$work/same" compare "$many.json" "$many.canonical"

# The lines of 6,250 faults below a name of 25,000 bytes: 156 MB of them, which the program writes as it makes them.
python3 - > "$work/below_a_name" << 'END' || exit 1
import json, sys
sys.path.insert(0, "tests/reports")
import hostile_shapes
json.dump(hostile_shapes.faults_below_a_name(25000), sys.stdout)
END
lines_below_a_name() {
    python3 -c 'for at in range(6250): print("/%s/%d: not a whole number" % ("N" * 25000, at))'
}
(ulimit -v 24000; "$erd" check "$work/below_a_name" 2> "$work/err") | cmp -s - <(lines_below_a_name) || why+='other lines; '
status=${PIPESTATUS[0]}
ended 'a limit on memory, for fault lines below a long name' 1 ''

# times COUNT TEXT: the text so many times, which has no percent sign or backslash
times() {
    printf "$2%.0s" $(seq "$1")
}

# deep NAME FILE STATUS OUT ERR: canonicalises the file under the usual limit on the stack, and under an eighth of it
deep() {
    local size
    printf '%s' "$4" > "$work/wanted"
    for size in 8192 1024; do
        (ulimit -s $size; "$erd" canon "$2" > "$work/out" 2> "$work/err"; exit $?) 2> /dev/null
        status=$?
        cmp -s "$work/out" "$work/wanted" || why+='other standard output; '
        ended "$1, in a stack of $size kB" "$3" "$5"
    done
}

# A report whose headers stand in one another, down to the 127th level.
open='{"@type":"ElectionResults.OrderedHeader","HeaderId":"HEADER","OrderedContent":['
contest='{"@type":"ElectionResults.OrderedContest","ContestId":"CONTEST"}'
ballot=$(cat "$small")
# nest COUNT TEXT HEADER CONTEST: the text with so many headers round the contest
nest() {
    local inner=${contest/CONTEST/$4}
    printf '%s' "${2/"$inner"/"$(times "$1" "${open/HEADER/$3}")$inner$(times "$1" ']}')"}"
}
nest 60 "$ballot" a4 a12 > "$work/deep"
deep 'the deepest ballot' "$work/deep" 0 "$(nest 60 "$(cat "$small_canonical")" hd1 co2)" ''
nest 61 "$ballot" a4 a12 > "$work/deeper"
deep 'a ballot that is one header deeper' "$work/deeper" 2 '' $'not JSON\n'
entry='{"@type":"ElectionResults.ExternalIdentifier","Type":"local-level","Value":"U1"'
report=$(cat "$one")
deepest="$entry,\"Depth\":$(times 122 '[')$(times 122 ']')}"
printf '%s' "${report/"$entry}"/"$deepest,$deepest"}" > "$work/twice"
deep 'two deepest entries that are equal' "$work/twice" 1 '' $'/GpUnit/0/ExternalIdentifier/1: repeated\n'
head -c 67108864 /dev/zero | tr '\0' '[' > "$work/brackets"
deep 'as many brackets as may be read' "$work/brackets" 2 '' $'not JSON\n'

# A processor that lacks what those since 2011 have.
if command -v qemu-x86_64 > /dev/null; then
    qemu-x86_64 -cpu kvm64 "$erd" check "$one" > "$work/out" 2> "$work/err"
    status=$?
    grep -q 'this machine lacks a feature of x86-64-v2.*--cpu x86-64$' "$work/err" && : > "$work/err"
    is_front "$work/out" "$one" 0
    ended 'an old processor' 127 ''
    qemu-x86_64 -cpu Nehalem "$erd" check "$one" > "$work/out" 2> "$work/err"
    status=$?
    [ "$(cat "$work/out")" = accepted ] || why+='it is not accepted; '
    ended 'the oldest processor that is new enough' 0 ''
else
    echo 'skipped an old processor: there is no qemu-x86_64'
fi

counts
