#!/usr/bin/env bash
# Runs the program on one file with no proof, as `rt try` does: try.sh FILE [COMMAND]. COMMAND is canon or check. What it writes
# comes when the run has ended, and its last line says that nothing was proved.
set -u
cd "$(dirname "$0")/../crates/erd" || exit 1
file=${1:?make try FILE=.. needs a file}
command=${2:-canon}
[[ $file == /* ]] || file=../../$file
[ -r "$file" ] || { echo "make try: $file can't be read" >&2; exit 1; }

echo 'This takes about a minute.' >&2
said=$(rt try --data "report.json=$file" -- "$command" report.json 2>&1)
grep -vE '^(checked: |interpreted: |run=)' <<< "$said"
status=$(sed -n 's/^run=ended status=\([0-9]*\).*/\1/p' <<< "$said")
echo "not proved in this run${status:+; the status was $status}" >&2
[ -n "$status" ]
