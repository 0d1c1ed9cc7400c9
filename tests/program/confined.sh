#!/usr/bin/env bash
# Tries contrib/confined.sh, the recipe of docs/LIMITS.md, with honest files, with the worst files that it names, and with
# programs that do what erd doesn't. One line a case.
set -u
. "$(dirname "$0")/../shared/start.sh" || exit 1
. tests/shared/commands.sh
for tool in prlimit timeout python3; do
    command -v "$tool" > /dev/null || { echo "skipped the recipe for a service: there is no $tool"; counts; exit; }
done
export ERD=$PWD/erd
mkdir "$work/temporary"
export TMPDIR=$work/temporary SECRET=x
ulimit -S -c "$(ulimit -H -c)"
one=examples/one-unit.json

# confined NAME STATUS WORD ..: a run ends with this status
confined() {
    local name=$1 wanted=$2
    shift 2
    run contrib/confined.sh "$@"
    said "$name" "$([ "$status" -eq "$wanted" ] || echo "status $status, not $wanted; $(head -c 200 "$work/err")")"
}

# with_or_without NAME: what holds in a room and without one
with_or_without() {
    confined "$1: accepted" 0 check "$one"
    equal "$1: the word" "$(cat "$work/out")" accepted
    confined "$1: the canonical form" 0 canon "$one"
    same_bytes "$1: its bytes" "$work/out" examples/one-unit.canonical.json
    confined "$1: the same" 0 compare --prefer local-level examples/county.vendor-a.json examples/county.vendor-b.json
    confined "$1: a code that two units share" 1 check "$work/fips.json"
    confined "$1: under a preference" 0 check --prefer local-level "$work/fips.json"
    confined "$1: two under a preference" 0 compare --prefer local-level "$work/fips.json" "$work/fips.json"
    confined "$1: a difference" 1 compare examples/county.vendor-a.json "$one"
    confined "$1: not JSON" 2 check README.md
    confined "$1: not JSON on the right" 2 compare "$one" README.md
    equal "$1: which of them" "$(cat "$work/out")" 'right: not JSON'
    confined "$1: a file that is missing" 3 check $'/nosuch\e\x7f\xc2\x9b'
    equal "$1: its words" "$(cat "$work/err")" $'cannot open\n/nosuch???'
    confined "$1: a folder" 3 check "$work"
    confined "$1: no command" 3
    OUTPUT=1000 confined "$1: a longer output" 125 canon examples/county.vendor-a.json
    equal "$1: its beginning" "$(stat -c %s "$work/out")" 1000
    OUTPUT=$(stat -c %s examples/one-unit.canonical.json) confined "$1: an output that just fits" 0 canon "$one"
    MEMORY=60000000 confined "$1: many faults below many arrays" 4 check "$work/deep.json"
    equal "$1: its words" "$(cat "$work/err")" 'no memory'
    MEMORY=100000000 TIME=2 OUTPUT=2000000000 confined "$1: 10 GB of lines" 124 check "$work/name.json"
    MEMORY=100000000 OUTPUT=100000 confined "$1: the beginning of 10 GB" 125 check "$work/name.json"
    ERD=$work/spins TIME=1 confined "$1: a program without end" 124 check "$one"
    ERD=$work/limits TIME=50 MEMORY=600000000 confined "$1: the limits of a program" 0 check "$one"
    equal "$1: no core, 50 seconds, and so many kilobytes" "$(cat "$work/out")" '0 50 585937'
    ERD=$work/complains OUTPUT=1000 confined "$1: errors without end" 125 canon "$one"
    equal "$1: their beginning" "$(stat -c %s "$work/err")" 1000
    confined "$1: a pipe" 0 check <(cat "$one")
    confined "$1: two pipes" 1 compare <(cat "$one") <(cat examples/small-ballot.json)
    confined "$1: more bytes than erd reads, through a pipe" 3 check <(head -c 67108865 /dev/zero)
    equal "$1: its words" "$(cat "$work/err")" 'too long'
    python3 tests/forms/command_lines.py --command confined "$1" script contrib/confined.sh > "$work/lines"
    counted "$1: the table of statuses" "$work/lines"
}

# with_terminal NAME TEXT: what a program writes that is begun from a terminal, and looks for it
with_terminal() {
    ERD=$work/asks run python3 -c 'import os, pty, sys; sys.exit(os.waitstatus_to_exitcode(pty.spawn(sys.argv[1:])))' contrib/confined.sh check "$one"
    said "$1" "$([ "$status" -eq 0 ] && [ "$(tr -d '\r' < "$work/out")" = "$2" ] || echo "status $status, '$(cat "$work/out")'")"
}

python3 - "$work" << 'END' || exit 1
import json, pathlib, sys
sys.path.insert(0, 'tests/reports')
import hostile_shapes
work = pathlib.Path(sys.argv[1])
work.joinpath('name.json').write_text(json.dumps(hostile_shapes.faults_below_a_name(100000)))
deep = [1.5] * 50000
for _ in range(120):
    deep = [deep]
report = json.loads(pathlib.Path('examples/one-unit.json').read_text())
work.joinpath('deep.json').write_text(json.dumps({**report, 'Extra': deep}))
# Two units have numbers of their own, and the code of the county both.
unit, = report['GpUnit']
code = {'@type': 'ElectionResults.ExternalIdentifier', 'Type': 'fips', 'Value': '1'}
units = [{**unit, '@id': name, 'ExternalIdentifier': [{**unit['ExternalIdentifier'][0], 'Value': name}, code]} for name in (unit['@id'], 'u8')]
work.joinpath('fips.json').write_text(json.dumps({**report, 'GpUnit': units}))
END
printf '#!/bin/sh\nwhile :; do :; done\n' > "$work/spins"
printf '#!/bin/sh\necho "$(ulimit -c) $(ulimit -t) $(ulimit -v)"\n' > "$work/limits"
printf '#!/bin/sh\n{ true < /dev/tty; } 2> /dev/null && echo it has the terminal\nexit 0\n' > "$work/asks"
# A program that goes on when it is told to end. It is looked at below.
printf '#!/bin/sh\ntrap "" TERM\nsleep 9\necho late > %s/late\n' "$work" > "$work/stays"
chmod +x "$work/limits" "$work/asks" "$work/stays"
ERD=$work/stays TIME=1 SANDBOX=no contrib/confined.sh check "$one" > "$work/stays.out" 2>&1 &
stays=$!
# A port of this machine on which somebody listens, until the end of this script.
mkfifo "$work/port"
python3 -c '
import socket, sys
listener = socket.create_server(("127.0.0.1", 0))
print(listener.getsockname()[1], flush=True)
sys.stdout.close()
while True:
    listener.accept()[0].close()' > "$work/port" &
listener=$!
trap 'kill "$listener"; rm -rf "$work"' EXIT
read -r port < "$work/port"

cat > "$work/writes" << 'END'
#!/bin/bash
{ echo x > /tmp/erd-was-here; echo x > "$HOME/erd-was-here"; } 2> /dev/null && echo 'it wrote a file'
for folder in / /tmp /dev /dev/shm /dev/pts /proc /left /usr; do
    { echo x > "$folder/erd-was-here"; } 2> /dev/null && echo "it wrote a file in $folder"
done
{ exec 9<> /dev/tcp/127.0.0.1/PORT; } 2> /dev/null && echo 'it opened a connection'
[ ! -e /home ] && [ ! -e /etc/passwd ] || echo 'it sees other files'
[ -z "$SECRET" ] || echo 'it has the environment'
exit 0
END
printf '#!/bin/sh\nexec yes complaint >&2\n' > "$work/complains"
sed -i "s/PORT/$port/" "$work/writes"
chmod +x "$work/spins" "$work/writes" "$work/complains"

export SANDBOX=no
with_or_without 'limits alone'
# What is said without a command, a program or a tool.
for words in '' check 'compare README.md' "check --prefer= $one"; do
    confined "usage: $words" 3 $words
    equal "its words: $words" "$(cat "$work/err")" $'confined.sh check|canon [--prefer TYPE] FILE\nconfined.sh compare [--prefer TYPE] LEFT RIGHT'
done
ERD=nosuch confined 'no program' 3 check "$one"
equal 'no program: its words' "$(cat "$work/err")" 'confined.sh: there is no erd'
for missing in timeout prlimit head mktemp; do
    mkdir "$work/no-$missing"
    for tool in timeout prlimit head mktemp sed; do
        [ "$tool" = "$missing" ] || ln -s "$(command -v "$tool")" "$work/no-$missing"
    done
    PATH=$work/no-$missing confined "no $missing" 3 check "$one"
    equal "no $missing: its words" "$(cat "$work/err")" "confined.sh: there is no $missing"
done
mkdir "$work/few"
for tool in timeout prlimit head mktemp sed wc rm; do
    ln -s "$(command -v "$tool")" "$work/few"
done
for room in missing broken; do
    [ "$room" = missing ] || { printf '#!/bin/sh\nexit 1\n' > "$work/few/bwrap"; chmod +x "$work/few/bwrap"; }
    PATH=$work/few SANDBOX=yes confined "a room that is asked for, where bwrap is $room" 3 check "$one"
    equal "a room that is asked for, where bwrap is $room: its words" "$(cat "$work/err")" 'confined.sh: bwrap is missing, or may not run here'
    PATH=$work/few SANDBOX='' confined "a room that is not asked for, where bwrap is $room" 0 check "$one"
done
TMPDIR=/nosuch confined 'no folder for a copy' 3 check <(cat "$one")
equal 'no folder for a copy: its words' "$(tail -n 1 "$work/err")" 'confined.sh: no folder for a copy can be made'
run setsid -w contrib/confined.sh check /dev/tty
expect 'a device that cannot be read' 3
equal 'a device that cannot be read: its words' "$(cat "$work/err")" 'read failed'
prefer=local-level confined 'a variable of the environment is no preference' 1 check "$work/fips.json"
# The limits where none is set, as the script says them.
ERD=$work/limits confined 'the limits that are usual' 0 check "$one"
equal 'no core, a minute, and 4 GB in kilobytes' "$(cat "$work/out")" '0 60 3906250'
for row in '100000000 0' '100000001 125'; do
    read -r size wanted <<< "$row"
    printf '#!/bin/sh\nhead -c %s /dev/zero\n' "$size" > "$work/long"
    chmod +x "$work/long"
    ERD=$work/long contrib/confined.sh check "$one" > /dev/null 2> "$work/err"
    status=$?
    expect "a program that writes $size bytes" "$wanted"
done
equal 'what it says of them' "$(sed -n 's/^#     \([A-Z]*\) .*(\([0-9]*\))$/\1 \2/p' contrib/confined.sh | paste -sd ' ')" \
    'MEMORY 4000000000 TIME 60 OUTPUT 100000000'
# What reaches nothing in a room does reach something without one.
{ head -n 1 "$work/writes"; sed -n '/dev\/tcp/,$p' "$work/writes"; } > "$work/connects"
chmod +x "$work/connects"
ERD=$work/connects confined 'a program that connects and looks around, without a room' 0 check "$one"
equal 'what it reached without a room' "$(cat "$work/out")" $'it opened a connection\nit sees other files\nit has the environment'
with_terminal 'what a terminal has without a room' "it has the terminal"

# The limits that docs/LIMITS.md gives for files of 10 MB, on two honest ones without blanks, which take the most.
python3 tests/reports/larger.py 111 examples/county-general.json | python3 -c '
import json, pathlib, sys
work, report = pathlib.Path(sys.argv[1]), json.load(sys.stdin)
for name in ("left", "right"):
    work.joinpath(f"{name}.json").write_text(json.dumps(report, ensure_ascii=False, separators=(",", ":")), encoding="utf-8")
    for family in ("GpUnit", "Party", "Person", "Office", "Header"):
        report[family].reverse()' "$work"
words='[0-9]* MB of memory and [0-9]* seconds are enough for files of 10 MB'
read -r megabytes seconds <<< "$(grep -o "$words" docs/LIMITS.md | sed 's/ MB of memory and / /; s/ seconds.*//')"
said 'the honest files have 10 MB' "$(stat -c %s "$work/left.json" | grep -qE '^(99|100)[0-9]{5}$' || stat -c %s "$work/left.json")"
MEMORY=${megabytes}000000 TIME=$seconds confined 'two honest files of 10 MB without blanks' 0 compare "$work/left.json" "$work/right.json"
equal 'the word for these' "$(cat "$work/out")" same

if command -v bwrap > /dev/null && bwrap --ro-bind / / --unshare-all true 2> /dev/null; then
    export SANDBOX=yes
    with_or_without 'in a room'
    ERD=$work/writes confined 'a program that writes, connects and looks around' 0 check "$one"
    equal 'what it reached' "$(cat "$work/out")none" none
    with_terminal 'what a terminal has in a room' ''
else
    echo 'skipped the room: there is no bwrap, or it may not run here'
fi

# The recipe for systemd of docs/LIMITS.md, with a program in the place of systemd-run that does as it does: it ends with the status of
# what it started, but with 1 where that took too long or too much memory or did not begin, and with 255 after a signal.
mkdir "$work/bin"
cat > "$work/bin/systemd-run" << 'END'
#!/bin/bash
while [[ $1 == -* ]]; do
    [ "$1" != -p ] || shift
    shift
done
case $ENDS in
    by-itself) exec "$@" ;;
    killed) "$@" > /dev/null 2>&1; exit 1 ;;
    signal) exit 255 ;;
    not-begun) exit 1 ;;
esac
END
chmod +x "$work/bin/systemd-run"
{
    block docs/LIMITS.md sh 2 | sed "s|/usr/share/doc/erd/contrib|$PWD/contrib|; s|upload\.json|\"\$UPLOAD\"|; s|lines\.txt|\"\$LINES\"|"
    echo 'exit "$status"'
} > "$work/recipe"
said 'the recipe for systemd is there' "$(grep -q 'systemd-run .*' "$work/recipe" && grep -q 'confined.sh check "$UPLOAD" > "$LINES"' "$work/recipe" || last_words "$work/recipe")"
sed 's/pre-election/certified/' "$one" > "$work/refused.json"
for row in "by-itself $one 0" "by-itself $work/refused.json 1" 'by-itself README.md 2' 'by-itself nosuch 3' "killed $one 3" "signal $one 3" \
    "not-begun $one 3"; do
    read -r ends upload wanted <<< "$row"
    run env PATH="$work/bin:$PATH" SANDBOX=no ENDS="$ends" UPLOAD="$upload" LINES="$work/lines" sh "$work/recipe"
    said "the recipe for systemd: $ends, $(basename "$upload")" "$([ "$status" -eq "$wanted" ] || echo "status $status, not $wanted")"
done
wait "$stays"
status=$?
said 'a program that goes on when it is told to end' "$([ "$status" -eq 124 ] && [ ! -e "$work/late" ] || echo "status $status, $(ls "$work/late")")"
said 'nothing is left of what it kept for a time' "$(ls -A "$work/temporary")"
run env PATH="$work/bin:$PATH" SANDBOX=no ENDS=by-itself OUTPUT=5 UPLOAD="$one" LINES="$work/lines" sh "$work/recipe"
said 'the recipe for systemd: more output than it may have' "$([ "$status" -eq 3 ] || echo "status $status")"
counts
