#!/usr/bin/env bash
# Runs a program for Windows by wine, in the folder of tests/shared/wine.sh. wine ends a program now and then with status 1 and no word, which
# none of ours does: then it runs once more on the same input, and $WINEPREFIX/again has a line for it.
set -u
input=$WINEPREFIX/input output=$WINEPREFIX/output errors=$WINEPREFIX/errors

once() {
    wine "$@" < "$input" > "$output" 2> "$errors"
    status=$?
}

cat > "$input"
once "$@"
if [ "$status" -eq 1 ] && [ ! -s "$output" ] && [ ! -s "$errors" ]; then
    echo "$*" >> "$WINEPREFIX/again"
    once "$@"
fi
cat "$output"
cat "$errors" >&2
exit "$status"
