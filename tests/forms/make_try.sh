#!/usr/bin/env bash
# Runs the first command of the README, `make try`, on a file with a blank in its name: it needs the kit and a C compiler alone, and
# proves nothing. One line a case.
set -u
. "$(dirname "$0")/../shared/start.sh" || exit 1
. tests/shared/commands.sh
sed 's/pre-election/certified/' examples/one-unit.json > "$work/a b.json"

run make --no-print-directory try FILE="$work/a b.json" COMMAND=check
expect_text 'a file with a fault' 0 '/Status: not pre-election'
equal 'what it says of itself' "$(tail -n 1 "$work/err")" 'not proved in this run; the status was 1'
run make --no-print-directory try FILE="$work/none.json"
expect 'a file that is not there' 2
equal 'what it says of that' "$(head -n 1 "$work/err")" "make try: $work/none.json can't be read"
counts
