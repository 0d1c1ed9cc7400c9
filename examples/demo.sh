#!/usr/bin/env bash
# Runs the commands under "First run" in README.md, and shows each with its output. ERD names the program, if it is not ./erd.
set -u
cd "$(dirname "$0")/.." || exit 1
top=$PWD
work=$(mktemp -d) || exit 1
trap 'rm -rf "$work"' EXIT
ln -s "$top/examples" "$work"
mkdir "$work/bin"
printf '#!/bin/sh\nexec %s "$@"\n' "${ERD:-"'$top/erd'"}" > "$work/bin/erd"
chmod +x "$work/bin/erd"
cd "$work" || exit 1
sed -n '/^## First run$/,/^## /{ s/^\$ //p; }' "$top/README.md" | while IFS= read -r command; do
    printf '$ %s\n' "$command"
    PATH=$work/bin:$PATH bash -c "$command" < /dev/null 2>&1
done
