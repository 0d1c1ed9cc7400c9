# For command.sh: files of every kind, failing devices, and the two vendors of the county and of two elections.

missing=$work/nosuch

# A file without leave to read. Root has leave to read all, so it gives that up.
bare=()
[ "$(id -u)" -eq 0 ] && bare=(setpriv --bounding-set=-dac_override,-dac_read_search)
cp "$one" "$work/closed"
chmod 000 "$work/closed"
for name in check canon left right; do
    case $name in
        left) words=(compare "$work/closed" "$one") ;;
        right) words=(compare "$one" "$work/closed") ;;
        *) words=("$name" "$work/closed") ;;
    esac
    "${bare[@]}" "$erd" "${words[@]}" < /dev/null > "$work/out" 2> "$work/err"
    status=$?
    expect_text "a file without leave to read: $name" 3 '' $'cannot open\n'"$work/closed"$'\n'
done
rm -f "$work/closed"

# A pipe as the file.
"$erd" check <(cat "$one") > "$work/out" 2> "$work/err"
status=$?
expect_text 'a pipe as the file' 0 $'accepted\n' ''
"$erd" canon <({ head -c 100 "$one"; sleep 0.2; tail -c +101 "$one"; }) > "$work/out" 2> "$work/err"
status=$?
expect 'a slow pipe as the file' 0 "$canonical" ''
"$erd" compare <(cat "$one") <(cat "$canonical") > "$work/out" 2> "$work/err"
status=$?
expect_text 'two pipes as the files' 0 $'same\n' ''
mkfifo "$work/pipe"
timeout 20 sh -c 'cat "$1" > "$2"' sh "$one" "$work/pipe" &
call check "$work/pipe"
wait $!
expect_text 'a named pipe as the file' 0 $'accepted\n' ''
run "$one" check /dev/stdin
expect_text 'standard input as the file' 0 $'accepted\n' ''
run "$one" compare "$canonical" /dev/stdin
expect_text 'standard input as the right file' 0 $'same\n' ''
call check /dev/null
expect_text 'a device without bytes as the file' 2 $'not JSON\n' ''

# Standard streams closed, full, or a pipe that nobody reads. A file that is opened then must not take their place.
cp "$one" "$work/kept"
for name in help check canon same different; do
    case $name in
        help) words=(--help) ;;
        same) words=(compare "$work/kept" "$one") ;;
        different) words=(compare "$small" "$work/kept") ;;
        *) words=("$name" "$work/kept") ;;
    esac
    call "${words[@]}"
    cp "$work/out" "$work/wanted_out"
    wanted=$status
    "$erd" "${words[@]}" <&- > "$work/out" 2> "$work/err"
    status=$?
    expect "standard input closed: $name" "$wanted" "$work/wanted_out" ''
    "$erd" "${words[@]}" < /dev/null > "$work/out" 2>&-
    status=$?
    : > "$work/err"
    expect "standard error closed, and not needed: $name" "$wanted" "$work/wanted_out" ''
    : > "$work/out"
    "$erd" "${words[@]}" < /dev/null >&- 2> "$work/err"
    status=$?
    expect "standard output closed: $name" 3 "$work/empty" $'write failed\n'
    "$erd" "${words[@]}" <&- >&- 2> "$work/err"
    status=$?
    expect "standard input and output closed: $name" 3 "$work/empty" $'write failed\n'
    "$erd" "${words[@]}" < /dev/null > /dev/full 2> "$work/err"
    status=$?
    expect "a full device: $name" 3 "$work/empty" $'write failed\n'
    exec 3> >(true)
    wait $!
    "$erd" "${words[@]}" < /dev/null >&3 2> "$work/err"
    status=$?
    exec 3>&-
    expect "a pipe that nobody reads: $name" 3 "$work/empty" $'write failed\n'
done
why=''
cmp -s "$work/kept" "$one" || why='it was written to'
said 'the file is as it was' "$why"
"$erd" check "$missing" < /dev/null > "$work/out" 2>&-
status=$?
: > "$work/err"
expect 'a missing file with standard error closed' 3 "$work/empty" ''
"$erd" canon tests/shared/refuse.c < /dev/null > "$work/out" 2> /dev/full
status=$?
expect 'not JSON on a full device' 3 "$work/empty" ''

# The county of two vendors, and edits of it.
call compare examples/county.vendor-a.json examples/county.vendor-b.json
expect_text 'the county of two vendors' 0 $'same\n' ''
for vendor in a b; do
    file=examples/county.vendor-$vendor.json
    call check "$file"
    expect_text "vendor $vendor, checked" 0 $'accepted\n' ''
    call canon "$file"
    expect "vendor $vendor, in canonical form" 0 "$county" ''
    call compare "$county" "$file"
    expect_text "vendor $vendor, compared with the canonical form" 0 $'same\n' ''
    sed "$rename" "$file" > "$work/renamed"
    call compare "$county" "$work/renamed"
    expect_text "vendor $vendor with another candidate's name, compared" 1 \
        $'candidate ["local-level","","K-12"]: member "BallotName"\n' ''
    call compare "$work/renamed" "$work/renamed_canonical"
    expect_text "vendor $vendor with that name, compared" 0 $'same\n' ''
done
call compare "$work/reordered" examples/county.vendor-b.json
expect_text 'another order on the ballots of one style, compared' 1 \
    $'style ["local-level","","BS-4"]: member "OrderedContent"\n' ''

# Two elections of two vendors, and edits of them.
call compare examples/two-elections.vendor-{a,b}.json
expect_text 'two elections by two vendors' 0 $'same\n' ''
for vendor in a b; do
    file=examples/two-elections.vendor-$vendor.json
    call check "$file"
    expect_text "two elections by vendor $vendor, checked" 0 $'accepted\n' ''
    call canon "$file"
    expect "two elections by vendor $vendor, in canonical form" 0 "$two" ''
    call canon --prefer state-level "$file"
    expect_other "two elections by vendor $vendor, in the order of another type of identifier" "$two"
    cp "$work/out" "$work/preferred_$vendor"
    sed 's/2026-REFERENDUM/2026-BONDS/' "$file" > "$work/renamed"
    call compare "$two" "$work/renamed"
    expect_text "an election by vendor $vendor with another identifier" 1 \
        $'election ["local-level","","2026-BONDS"]: only right\n' ''
    sed 's/2026-REFERENDUM/2026-PRIMARY/' "$file" > "$work/renamed"
    call check "$work/renamed"
    expect_text "two elections by vendor $vendor with one identifier" 1 $'/Election/1: identifier used twice\n' ''
done
why=''
cmp -s "$work/preferred_a" "$work/preferred_b" || why='they differ'
said 'two elections in that order: the same bytes for both vendors' "$why"

# non_blocking READS|WRITES WORD ..: the program with one end of a pipe that does not block, as standard input or output. The pipe
# stays empty, or nobody reads it before the program has ended. What it wrote into the pipe is in $work/out.
non_blocking() {
    python3 - "$erd" "$@" > "$work/out" 2> "$work/err" << 'END'
import os, subprocess, sys
reader, writer = os.pipe()
for end in (reader, writer):
    os.set_blocking(end, False)
streams = {'stdin': reader} if sys.argv[2] == 'READS' else {'stdin': subprocess.DEVNULL, 'stdout': writer}
status = subprocess.run([sys.argv[1], *sys.argv[3:]], **streams, check=False).returncode
os.close(writer)
while (some := os.read(reader, 1 << 20)):
    os.write(1, some)
sys.exit(status)
END
    status=$?
}
non_blocking READS
expect_text 'a non-blocking standard input with nothing to read' 3 '' $'read failed\n'
"$erd" canon examples/county-general.json > "$work/form" 2> "$work/err"
non_blocking WRITES canon examples/county-general.json
head -c 65536 "$work/form" > "$work/front"
expect 'a non-blocking pipe as standard output, that is full' 3 "$work/front" $'write failed\n'
