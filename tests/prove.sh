#!/usr/bin/env bash
# Proves every crate, and runs the tests: `rt ci`. Rarely the prover loses a file of its own while other work goes on: it says that
# a crate is proved, but that it could not write the statements. Where this is all that is wrong, `rt ci` runs once more; a kit
# that keeps what is proved takes it. A line that begins with `again` says so. Any other failure stands.
#
# `rt ci` reckons with up to twice the memory that a crate takes. On two or three processors it then proves the large ones one after
# another, with a job each. With RT_JOBS it proves that many beside each other.
#
# usage: prove.sh [PROCESSORS MEMORY], the megabytes that are free, both of which it finds out itself
set -u
cd "$(dirname "$0")/.." || exit 1
processors=${1:-$(nproc)}
memory=${2:-$(awk '/^MemAvailable:/ { print int($2 / 1000) }' /proc/meminfo)}
if [ "$processors" -gt 1 ] && [ "$processors" -lt 4 ] && [ "$memory" -ge 20000 ]; then
    export RT_JOBS=${RT_JOBS:-2}
fi
said=$(mktemp) || exit 1
trap 'rm -f "$said"' EXIT

# names PATTERN: what the first group of the pattern is in the lines that have it
names() {
    sed -nE "s/$1/\1/p" "$said" | sort -u
}

# is_lost_alone: whether each crate that failed of itself has lost a file, and nothing else failed
is_lost_alone() {
    local lost failed
    lost=$(names '.*`([a-z_]+)` is proved, but antt could not write its statements \(.*no checked file in this check.*')
    failed=$(names '^rt: ([a-z_]+)(: its tests are)? NOT PROVED$')
    [ -n "$lost" ] && [ "$lost" = "$failed" ] && ! grep -qE '^rt: ([a-z_]+): its tests FAILED|^rt: .* was not run' "$said"
}

rt ci 2>&1 | tee "$said"
status=${PIPESTATUS[0]}
if [ "$status" -ne 0 ] && is_lost_alone; then
    echo "again: rt ci, since the prover lost a file of $(names '.*`([a-z_]+)` is proved, but antt could not write.*' | tr '\n' ' ')"
    rt ci 2>&1
    status=$?
fi
exit "$status"
