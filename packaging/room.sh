#!/usr/bin/env bash
# Says where this machine has less memory or disk than a proof of everything takes.
#
# usage: room.sh [MEMORY DISK], the megabytes that are free, which it finds out itself
set -eu
cd "$(dirname "$0")/.."
memory=${1:-$(awk '/^MemAvailable:/ { print int($2 / 1000) }' /proc/meminfo)}
disk=${2:-$(df --output=avail -B 1000000 . | tail -n 1)}

# told WHAT HAS NEEDS
told() {
    [ "$2" -ge "$3" ] || echo "notice: $1: $(($2 / 1000)).$(($2 / 100 % 10)) GB are free, and $(($3 / 1000)).$(($3 / 100 % 10)) GB are needed"
}

told 'memory, for the largest proof' "$memory" 7200
told 'disk, for the proofs that are kept' "$disk" 5700
