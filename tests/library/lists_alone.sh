#!/usr/bin/env bash
# Compiles tests/library/lists_alone.c with these flags more, and runs it.
set -eu
cd "$(dirname "$0")/../.."
work=$(mktemp -d)
trap 'rm -rf "$work"' EXIT
"${CC:-cc}" -std=c11 -g -O1 -Wall -Wextra "$@" -o "$work/lists" tests/library/lists_alone.c
"$work/lists"
