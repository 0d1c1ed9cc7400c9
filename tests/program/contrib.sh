#!/usr/bin/env bash
# Tries the scripts of contrib/ in a real repository of git. ERD names the program, if it is not ./erd. One line a case.
set -u
. "$(dirname "$0")/../shared/start.sh" || exit 1
top=$PWD
. tests/shared/commands.sh
if ! command -v git > /dev/null || ! command -v jq > /dev/null; then
    echo 'skipped the scripts of contrib: there is no git, or no jq'
    counts
    exit
fi
mkdir "$work/bin" "$work/temporary"
export TMPDIR=$work/temporary
printf '#!/bin/sh\nexec %s "$@"\n' "${ERD:-$top/erd}" > "$work/bin/erd"
chmod +x "$work/bin/erd"
export PATH=$work/bin:$PATH HOME=$work GIT_CONFIG_NOSYSTEM=1
export GIT_AUTHOR_NAME=a GIT_AUTHOR_EMAIL=a@a.example GIT_COMMITTER_NAME=a GIT_COMMITTER_EMAIL=a@a.example
unset ERD ERD_PREFER

# faulty FILE: a report with two faults, one of them below a name with a control character
faulty() {
    sed 's/pre-election/certified/; s/"Status"/"Odd\\u001b":{"@id":"x"},&/' "$top/examples/one-unit.json" > "$1"
}

# endless FILE: a report of 65 kB whose faults stand below a long name, so that their lines are 250 MB
endless() {
    local name numbers
    name=$(head -c 25000 /dev/zero | tr '\0' x)
    numbers=$(yes 1.5 | head -n 10000 | paste -sd,)
    { printf '{"%s":[%s],' "$name" "$numbers"; tail -c +2 "$top/examples/one-unit.json"; } > "$1"
}

# bounded COMMAND ..: runs a command whose programs have 200 MB each, and may write 1 MB into a file
bounded() {
    (ulimit -f 1000 -v 200000 && run "$@"; exit "$status")
    status=$?
}

# few_lines NAME: the last run showed something, and not much
few_lines() {
    local size
    size=$(cat "$work/out" "$work/err" | wc -c)
    said "$1" "$([ "$size" -gt 1000 ] && [ "$size" -lt 250000 ] || echo "$size bytes")"
}

# ---- check-folder.sh
folder=$work/folder
mkdir "$folder" "$work/none"
cp examples/one-unit.json "$folder/a.json"
cp examples/small-ballot.json "$folder/b c.json"
run contrib/check-folder.sh "$folder"
expect_text 'a folder of accepted files' 0 ''
faulty "$folder/d.json"
run contrib/check-folder.sh "$folder"
expect_text 'a refused file in a folder' 1 "$folder/d.json"$'\n  /Odd^[/@id: carried identity\n  /Status: not pre-election'
printf x > "$folder/e.json"
cp examples/one-unit.json "$folder/f.json"
run contrib/check-folder.sh "$folder"
expect 'the highest status of all' 2
equal 'the names of what is not accepted' "$(grep -v '^ ' "$work/out")" "$folder/d.json"$'\n'"$folder/e.json"
for jobs in 1 2 3 7; do
    run env JOBS=$jobs contrib/check-folder.sh "$folder"
    expect_text "every file is judged, $jobs at a time" 2 \
        "$folder/d.json"$'\n  /Odd^[/@id: carried identity\n  /Status: not pre-election\n'"$folder/e.json"$'\n  not JSON'
done
run env JOBS=1 contrib/check-folder.sh "$folder/e.json" "$folder/d.json" "$folder/a.json"
expect 'the highest status, with a lower one behind it' 2
run contrib/check-folder.sh "$folder/a.json" "$folder/nosuch.json"
expect_text 'a file that is not there' 3 "$folder/nosuch.json"$'\n  cannot open\n  '"$folder/nosuch.json"
mkdir "$work/broken"
ln -s nosuch "$work/broken/a.json"
cp "$folder/d.json" "$work/broken"
run contrib/check-folder.sh "$work/broken"
expect_text 'a folder that begins with a broken link' 3 \
    "$work/broken/a.json"$'\n  cannot open\n  '"$work/broken/a.json"$'\n'"$work/broken/d.json"$'\n  /Odd^[/@id: carried identity\n  /Status: not pre-election'
rm "$work/broken/d.json"
run contrib/check-folder.sh "$work/broken"
expect_text 'a folder with a broken link alone' 3 "$work/broken/a.json"$'\n  cannot open\n  '"$work/broken/a.json"
run contrib/check-folder.sh "$work/none"
expect_text 'a folder without definitions' 3 ''
equal 'a folder without definitions: its words' "$(cat "$work/err")" 'check-folder.sh: there is no *.json file'
mkdir -p "$work/two/a.json" "$work/two/inner"
cp "$folder/d.json" "$work/two"
cp "$folder/e.json" "$work/two/inner"
cp "$folder/e.json" "$work/two/e.txt"
run contrib/check-folder.sh "$work/two" "$folder/e.json" "$folder/a.json" "$folder"
expect_text 'each file that is named, or stands in a folder itself, in their order' 3 "$work/two/a.json
  not a regular file
$work/two/d.json"$'\n  /Odd^[/@id: carried identity\n  /Status: not pre-election\n'"$folder/e.json
  not JSON
$folder/d.json"$'\n  /Odd^[/@id: carried identity\n  /Status: not pre-election\n'"$folder/e.json
  not JSON"
for words in '' -- '--prefer' '--prefer local-level' '--prefer=' '--prefer= '"$folder" '-x' '--prefr local-level '"$folder"; do
    run contrib/check-folder.sh $words
    expect_text "usage: check-folder.sh $words" 3 ''
    equal "it is told: check-folder.sh $words" "$(cat "$work/err")" 'usage: check-folder.sh [--prefer TYPE] [--] FOLDER|FILE ..'
done
run contrib/check-folder.sh --prefer '' "$folder"
expect_text 'an empty preference' 3 ''
jq '.GpUnit += [.GpUnit[0] | .["@id"] = "u8" | .ExternalIdentifier[0].Value = "U2"]
    | .GpUnit[].ExternalIdentifier += [.GpUnit[0].ExternalIdentifier[0] | .Type = "fips" | .Value = "1"]' \
    examples/one-unit.json > "$work/fips.json"
run contrib/check-folder.sh "$work/fips.json"
expect 'units that share a FIPS code' 1
run env prefer=local-level contrib/check-folder.sh "$work/fips.json"
expect 'a variable of the environment is no preference' 1
for words in '--prefer local-level' '--prefer=local-level' '--prefer local-level --'; do
    run contrib/check-folder.sh $words "$work/fips.json"
    expect_text "the same under a preference: $words" 0 ''
done
# A type with a sign of equality is handed on whole.
printf '#!/bin/sh\nprintf "%%s;" "$@" > "$ASKED"\necho accepted\n' > "$work/asked"
chmod +x "$work/asked"
for words in '--prefer=a=b' '--prefer a=b'; do
    run env ERD="$work/asked" ASKED="$work/words" contrib/check-folder.sh $words "$folder/a.json"
    equal "the preference that erd is given: $words" "$(cat "$work/words")" "check;--prefer;a=b;--;$folder/a.json;"
done
mkdir "$work/odd"
cp -r "$folder" "$work/odd/-b"
cp -r contrib "$work/odd"
printf x > "$work/odd/"$'-a\e\n\tb.json'
cd "$work/odd" || exit 1
run contrib/check-folder.sh -- -b
expect 'a folder whose name begins with a hyphen' 2
equal 'its files are named' "$(grep -v '^ ' "$work/out")" $'-b/d.json\n-b/e.json'
run contrib/check-folder.sh -- -*.json
expect_text 'a name with control characters' 2 $'-a^[??b.json\n  not JSON'
cd "$top" || exit 1
endless "$work/endless.json"
bounded contrib/check-folder.sh "$work/endless.json" "$folder/a.json" "$folder/d.json"
expect 'a list of faults without end' 1
few_lines 'its beginning is shown'
equal 'that it goes on is told' "$(grep -c '^  \.\. (erd check has the whole list)$' "$work/out")" 1
equal 'the file after it' "$(tail -n 3 "$work/out")" "$(contrib/check-folder.sh "$folder/d.json")"

# ---- repeated-names.py
printf '{"FullName":"Bob Elm","FullName":"Ann Ash","a\\u001b":{"b":1,"b":2}}' > "$work/twice.json"
run contrib/repeated-names.py "$folder/a.json"
expect_text 'no repeated name' 0 ''
run contrib/repeated-names.py "$folder/a.json" "$work/twice.json"
expect_text 'repeated names' 1 "$work/twice.json: /a\u{1b}/b: written 2 times; erd reads the last value
$work/twice.json: /FullName: written 2 times; erd reads the last value"
run contrib/repeated-names.py "$folder/e.json" "$work/twice.json"
expect 'repeated names, and a file that is not JSON' 2
equal 'it is told which is not JSON' "$(cat "$work/err")" "$folder/e.json: not JSON"
equal 'the names of the file behind it' "$(grep -c "^$work/twice.json: " "$work/out")" 2
run contrib/repeated-names.py "$work/twice.json" "$folder/e.json" "$folder/a.json"
expect 'the highest status, in the middle' 2
run contrib/repeated-names.py $'/nosuch\e.json'
expect_text 'repeated names of a file that is not there' 3 ''
equal 'it is told which is not there' "$(cat "$work/err")" '/nosuch\u{1b}.json: No such file or directory'
run contrib/repeated-names.py
expect_text 'repeated names without a file' 3 ''
equal 'repeated names without a file: its words' "$(sed -n 3p "$work/err")" 'usage: repeated-names.py FILE ..'
for word in --help -h; do
    run contrib/repeated-names.py $word
    expect "repeated names: $word" 0
    equal "repeated names: $word: its words" "$(sed -n 3p "$work/out")" 'usage: repeated-names.py FILE ..'
done

# ---- the statuses of these scripts, in each state of the streams
for script in check-folder repeated-names git-textconv; do
    file=$(echo contrib/$script.*)
    python3 tests/forms/command_lines.py --command $script "" script "$file" > "$work/lines"
    counted "the table of statuses: $script" "$work/lines"
done

# ---- what they say of an output that is closed
for script in check-folder git-textconv; do
    run sh -c 'exec "$@" >&-' sh contrib/$script.sh "$folder/a.json"
    expect_text "$script.sh with a closed output" 3 ''
    equal "$script.sh with a closed output: its words" "$(cat "$work/err")" "$script.sh: write failed"
done

# ---- a program that is lost, and a worker
printf '#!/bin/sh\nkill -9 $$\n' > "$work/bin/ends"
chmod +x "$work/bin/ends"
run env ERD=ends contrib/check-folder.sh "$folder/a.json"
expect 'a program that is lost' 3
equal 'its file, and how it ended' "$(sed -n '1p; $p' "$work/out")" "$folder/a.json"$'\n  erd ended with status 137'
run env ERD=false contrib/check-folder.sh "$folder/a.json"
expect_text 'a program that says nothing of a file that it refuses' 3 "$folder/a.json"$'\n  erd ended with status 1, and no line'
printf '#!/bin/sh\necho no memory >&2\nexit 4\n' > "$work/bin/poor"
chmod +x "$work/bin/poor"
run env ERD=poor contrib/check-folder.sh "$folder/a.json"
expect_text 'a program without memory' 4 "$folder/a.json"$'\n  no memory'
run env ERD=poor contrib/git-textconv.sh "$folder/a.json"
expect_text 'git-textconv.sh with a program without memory' 3 'no memory'
printf '#!/bin/sh\nkill -9 "$(ps -o ppid= "$PPID")" "$PPID"\n' > "$work/bin/kills"
chmod +x "$work/bin/kills"
run env ERD=kills contrib/check-folder.sh "$folder/a.json"
expect_text 'a worker that is lost' 3 ''
equal 'it is told' "$(tail -n 1 "$work/err")" 'check-folder.sh: some files were not judged'

# ---- a run that is interrupted by the first of its programs: no further one is begun
printf '#!/bin/sh\necho >> %s/begun\nkill -s "$SIGNAL" "$(cat %s/script)"\nexec sleep 1\n' "$work" "$work" > "$work/bin/interrupts"
chmod +x "$work/bin/interrupts"
for signal in TERM INT HUP; do
    rm -f "$work/begun"
    run env --default-signal ERD=interrupts JOBS=1 SIGNAL="$signal" sh -c 'echo $$ > "$0"; exec "$@"' "$work/script" \
        contrib/check-folder.sh "$folder/a.json" "$folder/d.json"
    expect_text "a run that is interrupted by $signal" 130 ''
    sleep 1
    equal "it begins no other program after $signal" "$(wc -l < "$work/begun")" 1
done

# ---- JOBS: each program says how many there are
mkdir "$work/running"
cat > "$work/bin/counts" << END
#!/bin/sh
: > "$work/running/\$\$"
ls "$work/running" | wc -l >> "$work/jobs"
sleep 0.\$((JOBS * 3))
rm "$work/running/\$\$"
END
chmod +x "$work/bin/counts"
for jobs in 1 3; do
    rm -f "$work/jobs"
    run env ERD=counts JOBS=$jobs contrib/check-folder.sh "$folder" "$folder"
    expect_text "ten files, $jobs at a time" 0 ''
    most=$(sort -n "$work/jobs" | tail -n 1)
    equal "each of them once, with JOBS=$jobs" "$(wc -l < "$work/jobs")" 10
    said "no more than $jobs at a time" "$([ "$most" -le "$jobs" ] && [ "$most" -gt $((jobs / 2)) ] || echo "$most")"
done

# ---- where there is no folder for what is found
run env TMPDIR=/nosuch contrib/check-folder.sh "$folder/a.json"
expect_text 'check-folder.sh without a folder for its work' 3 ''
equal 'check-folder.sh without a folder for its work: its words' "$(tail -n 1 "$work/err")" 'check-folder.sh: no folder for what is found can be made'

# ---- where there is no program
for script in check-folder git-textconv; do
    run env ERD=nosuch contrib/$script.sh "$folder/a.json"
    expect_text "$script.sh without a program" 3 ''
    equal "$script.sh without a program: its words" "$(cat "$work/err")" "$script.sh: there is no nosuch"
done

. tests/program/contrib_git.sh

said 'nothing is left of what they kept for a time' "$(ls -A "$work/temporary")"
counts
