#!/usr/bin/env bash
# Runs the built program as a user does: on the table of command lines (tests/forms/command_lines.txt), files, pipes and closed
# descriptors. ERD names the program, if it is not ./erd. One line a case.
set -u
. "$(dirname "$0")/../shared/start.sh" || exit 1
erd=${ERD:-$PWD/erd}
. tests/shared/erd_answers.sh

: > "$work/empty"
one=examples/one-unit.json
canonical=examples/one-unit.canonical.json
small=examples/small-ballot.json

python3 tests/forms/command_lines.py '' program "$erd" > "$work/lines"
counted 'the table of command lines' "$work/lines"

run "$canonical"
expect 'canonical output fed back' 0 "$canonical" ''

cat "$one" | "$erd" 2> "$work/err" | cat > "$work/out"
status=${PIPESTATUS[1]}
expect 'through pipes' 0 "$canonical" ''

{ head -c 100 "$one"; sleep 0.2; tail -c +101 "$one"; } | "$erd" > "$work/out" 2> "$work/err"
status=$?
expect 'a slow pipe' 0 "$canonical" ''

run examples/small-ballot.canonical.json
expect 'canonical output with contests fed back' 0 examples/small-ballot.canonical.json ''

run examples/small-ballot.json
expect 'a small ballot' 0 examples/small-ballot.canonical.json ''

# Two vendors define the ballots of one county, with other names, orders, escapes and envelopes.
county=examples/county.canonical.json
run examples/county.vendor-a.json
expect 'a county by one vendor' 0 "$county" ''
run examples/county.vendor-b.json
expect 'the same county by another' 0 "$county" ''
run "$county"
expect 'the canonical county fed back' 0 "$county" ''

# A primary and a referendum of one county in one report, by two vendors.
two=examples/two-elections.canonical.json
for vendor in a b; do
    run "examples/two-elections.vendor-$vendor.json"
    expect "two elections by vendor $vendor" 0 "$two" ''
done
run "$two"
expect 'the canonical two elections fed back' 0 "$two" ''

# One name on the ballots is another; the rest stands as it was.
rename='s/Ingrith Sablewood/Ingrith Sablewode/'
sed "$rename" "$county" > "$work/renamed_canonical"
for vendor in a b; do
    sed "$rename" "examples/county.vendor-$vendor.json" > "$work/renamed"
    run "$work/renamed"
    expect_other "vendor $vendor with another candidate's name" "$county"
    expect "vendor $vendor with that name in its place" 0 "$work/renamed_canonical" ''
done

# On the ballots of one style two teams change their places.
sed 's/"sel-0101", "sel-0103", "sel-0102"/"sel-0103", "sel-0101", "sel-0102"/' \
    examples/county.vendor-a.json > "$work/reordered"
run "$work/reordered"
expect_other 'another order on the ballots of one style' "$county"

# A hundred selections name one candidate whose key is a million bytes long: the key is held once.
value=$(head -c 1000000 /dev/zero | tr '\0' k)
selections=''
for i in {1..100}; do
    selections+="{\"@id\":\"s$i\",\"@type\":\"ElectionResults.CandidateSelection\",\"CandidateIds\":[\"a5\"],\"SequenceOrder\":$i},"
done
ballot=$(cat examples/small-ballot.json)
ballot=${ballot/'"Value":"K1"'/"\"Value\":\"$value\""}
printf '%s' "${ballot/'"ContestSelection":['/"\"ContestSelection\":[$selections"}" > "$work/shared"
(ulimit -v 60000 && "$erd" < "$work/shared" > "$work/out" 2> "$work/err")
status=$?
cp "$work/out" "$work/wanted_out"
expect 'a long key that many selections name' 0 "$work/wanted_out" ''

sed 's/"Value":"U2"/"Value":"U1"/' "$small" > "$work/twins"
"$erd" < "$work/twins" > "$work/out" 2> /dev/full
status=$?
: > "$work/err"
expect 'fault lines on a full device' 3 "$work/empty" ''

size=$(wc -c < "$one")
{ cat "$one"; head -c $((67108864 - size)) /dev/zero | tr '\0' ' '; } > "$work/large"
run "$work/large"
expect 'the largest input' 0 "$canonical" ''
call canon "$work/large"
expect 'the largest file' 0 "$canonical" ''
call check "$work/large"
expect_text 'the largest file, checked' 0 $'accepted\n' ''
call compare "$work/large" "$work/large"
expect_text 'the largest file, compared with itself' 0 $'same\n' ''

printf ' ' >> "$work/large"
run "$work/large"
expect 'one byte more' 3 "$work/empty" $'too long\n'
call check "$work/large"
expect 'one byte more in a file' 3 "$work/empty" $'too long\n'
call canon "$work/large"
expect 'one byte more in a file for its canonical form' 3 "$work/empty" $'too long\n'
call compare "$work/large" "$one"
expect 'one byte more on the left' 3 "$work/empty" $'too long\n'
call compare "$one" "$work/large"
expect 'one byte more on the right' 3 "$work/empty" $'too long\n'
call compare "$work/large" examples
expect 'one byte more on the left, and a folder on the right' 3 "$work/empty" $'too long\n'
call compare examples "$work/large"
expect 'a folder on the left, and one byte more on the right' 3 "$work/empty" $'read failed\n'
rm -f "$work/large"

"$erd" < "$one" > /dev/full 2> "$work/err"
status=$?
: > "$work/out"
expect 'a full device' 3 "$work/empty" $'write failed\n'

"$erd" < "$one" >&- 2> "$work/err"
status=$?
expect 'standard output closed' 3 "$work/empty" $'write failed\n'

exec 3> >(true)
wait $!
"$erd" < "$one" >&3 2> "$work/err"
status=$?
exec 3>&-
expect 'a pipe that nobody reads' 3 "$work/empty" $'write failed\n'

"$erd" <&- > "$work/out" 2> "$work/err"
status=$?
expect 'standard input closed' 3 "$work/empty" $'read failed\n'

run examples
expect 'a folder as standard input' 3 "$work/empty" $'read failed\n'

"$erd" < "$one" > "$work/out" 2>&-
status=$?
: > "$work/err"
expect 'standard error closed, and not needed' 0 "$canonical" ''

"$erd" < "$work/empty" > "$work/out" 2>&-
status=$?
expect 'standard error closed, and needed' 3 "$work/empty" ''

"$erd" nosuch > "$work/out" 2>&-
status=$?
: > "$work/err"
expect 'usage with standard error closed' 3 "$work/empty" ''

. tests/program/command_files.sh
. tests/program/command_rearranged.sh
. tests/program/command_many.sh

# The vectors stand in three places.
why=''
cmp -s "$one" crates/erd/stdin || why+='crates/erd/stdin differs; '
cmp -s "$canonical" crates/erd/stdout || why+='crates/erd/stdout differs; '
# The parts of a text that is broken by `concat!` are one text.
sed -z 's/",\n *"//g' crates/erd_rows/src/tests/vectors.rt > "$work/vectors"
for file in one-unit.json one-unit.canonical.json small-ballot.json small-ballot.canonical.json; do
    sed 's/\\/\\\\/g; s/"/\\"/g' "examples/$file" > "$work/literal"
    grep -qFf "$work/literal" "$work/vectors" || why+="$file is not in erd_rows; "
done
said 'examples are the vectors of the tests' "$why"

counts
