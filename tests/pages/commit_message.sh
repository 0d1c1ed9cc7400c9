#!/usr/bin/env bash
# Tries the hook that asks for a commit message with a body (.githooks/commit-msg), and the commands of CONTRIBUTING.md that find a
# commit, in a real repository. One line a case.
set -u
. "$(dirname "$0")/../shared/start.sh" || exit 1
. tests/shared/commands.sh
command -v git > /dev/null || { echo 'skipped the hook for messages: there is no git'; counts; exit; }
export HOME=$work GIT_CONFIG_NOSYSTEM=1 GIT_AUTHOR_NAME=a GIT_AUTHOR_EMAIL=a@a.example GIT_COMMITTER_NAME=a GIT_COMMITTER_EMAIL=a@a.example
hooks=$PWD/.githooks
git init -q "$work/clone"
git -C "$work/clone" config core.hooksPath "$hooks"

# passes MESSAGE, refused MESSAGE WORDS: what becomes of a commit with this message
passes() {
    said "passes: $(head -n 1 <<< "$1")" "$(git -C "$work/clone" commit -q --allow-empty --cleanup=verbatim -m "$1" 2>&1)"
}
refused() {
    local words
    words=$(git -C "$work/clone" commit -q --allow-empty --cleanup=verbatim -m "$1" 2>&1) && words='it passed'
    said "refused: $2" "$(grep -qF "$2" <<< "$words" || echo "it said: $words")"
}

passes $'Sort each family once\n\nNumbers and order both come from one table.'
passes $'fixup! Sort each family once'
passes $'Sort each family twice\n\nTwo lines\nof a body.\n\nSigned-off-by: a <a@a.example>'
refused 'Sort each family once' 'there is no body that says why'
refused $'Sort each family once\n\n# a comment alone' 'there is no body that says why'
refused $'Sort each family once\n\nSigned-off-by: a <a@a.example>' 'there is no body that says why'
refused $'Sort each family once\nas each was sorted twice.' 'no empty line follows the subject'
refused $'sort each family once\n\nWhy.' 'the subject begins with a small letter'
refused $'Sort each family once.\n\nWhy.' 'the subject ends with a full stop'
refused "$(printf 'S%.0s' {1..73})"$'\n\nWhy.' 'the subject is longer than 72 characters'

# of_page WORD: the commands of git on the page that begin with the word
of_page() {
    grep "^git $1 " CONTRIBUTING.md
}

# answers ANSWER: a commit whose program gives this answer on the report of the page
answers() {
    echo "$1" > "$work/clone/answer"
    git -C "$work/clone" add answer
    git -C "$work/clone" commit -q --allow-empty -m "Answer $1" -m 'Why.'
    git -C "$work/clone" rev-parse HEAD
}

passes $'Pass the gate\n\nWhy.\n\nGate: 8511 passed, 0 failed'
passes $'Fail the gate\n\nWhy.\n\nGate: 8510 passed, 1 failed'
run env -C "$work/clone" sh -c "$(of_page log)"
equal 'the commits that passed the gate' "$(cut -d ' ' -f 3- "$work/out")" 'Pass the gate'

# recorded NAME STATUS COUNTS: packaging/record_gate.sh after a gate with these counts
mkdir -p "$work/clone/packaging" "$work/clone/out"
cp packaging/record_gate.sh "$work/clone/packaging"
echo /out > "$work/clone/.git/info/exclude"
git -C "$work/clone" add packaging
passes $'Bring the script\n\nWhy.'
recorded() {
    echo "$3" > "$work/clone/out/gate-counts"
    run "$work/clone/packaging/record_gate.sh"
    expect "recorded: $1" "$2"
}
tree=$(git -C "$work/clone" rev-parse 'HEAD^{tree}')
# unrecorded NAME COUNTS WORDS: there is no commit, and it is said why
unrecorded() {
    recorded "$1" 1 "$2"
    equal "it is said: $1" "$(cat "$work/err")" "record_gate: $3"
    equal "there is no commit: $1" "$(git -C "$work/clone" rev-parse HEAD)" "$last"
}
last=$(git -C "$work/clone" rev-parse HEAD)
unrecorded 'a gate that failed' "$tree 8510 passed, 1 failed" 'the last gate here says: 8510 passed, 1 failed'
unrecorded 'a gate that says more' "$tree 8511 passed, 0 failed, 1 lost" 'the last gate here says: 8511 passed, 0 failed, 1 lost'
unrecorded 'a gate of something else' "${tree//[a-f]/0} 8511 passed, 0 failed" 'the last gate here ran on something else'
echo more >> "$work/clone/packaging/record_gate.sh"
git -C "$work/clone" add packaging
recorded 'a gate that passed' 0 "$tree 8511 passed, 0 failed"
equal 'which commit that is' "$(cat "$work/out")" "$(git -C "$work/clone" log -1 --format=%h) Record a gate that passed"
equal 'its body' "$(git -C "$work/clone" log -1 --format=%b | head -n 1)" 'All of `make test` passed on what stands in this commit.'
git -C "$work/clone" reset -q --hard
equal 'its tree' "$(git -C "$work/clone" rev-parse 'HEAD^{tree}')" "$tree"
run env -C "$work/clone" sh -c "$(of_page log)"
equal 'the commit that was recorded' "$(head -n 1 "$work/out" | cut -d ' ' -f 3-)" 'Record a gate that passed'
equal 'its trailer' "$(git -C "$work/clone" log -1 --format='%(trailers:key=Gate,valueonly)' | head -n 1)" '8511 passed, 0 failed'
rm "$work/clone/out/gate-counts"
run "$work/clone/packaging/record_gate.sh"
expect 'recorded: no gate' 1
equal 'what is said where there is none' "$(cat "$work/err")" 'record_gate: no gate has ended here, or it ran on what was not committed'

mkdir "$work/words"
printf '#!/bin/sh\n[ "$*" = "-s try FILE=%s COMMAND=check" ] && cat answer\n' "$HOME/report.json" > "$work/words/make"
chmod +x "$work/words/make"
good=$(answers accepted)
answers accepted > "$work/before"
bad=$(answers '/Status: not pre-election')
for answer in '/Status: missing member' 'not accepted'; do answers "$answer" > "$work/last"; done
run env -C "$work/clone" PATH="$work/words:$PATH" sh -c "$(of_page bisect | sed "s/BAD/$(cat "$work/last")/; s/GOOD/$good/")"
equal 'the commit that brought another answer' "$(sed -n 's/ is the first bad commit$//p' "$work/out")" "$bad"
counts
