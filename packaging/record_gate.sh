#!/usr/bin/env bash
# Makes a commit with the trailer `Gate:` and the counts of the last gate here, by which `git bisect` finds commits that were whole. The gate
# leaves its counts in out/gate-counts, with the tree on which it ran. Where something failed there, or something else is committed now,
# there is no commit, and the status is 1.
set -eu
cd "$(dirname "$0")/.."

refuse() {
    echo "record_gate: $1" >&2
    exit 1
}

[ -e out/gate-counts ] || refuse 'no gate has ended here, or it ran on what was not committed'
read -r tree counts < out/gate-counts
[[ $counts =~ ^[0-9]+\ passed,\ 0\ failed$ ]] || refuse "the last gate here says: $counts"
[ "$tree" = "$(git rev-parse 'HEAD^{tree}')" ] || refuse 'the last gate here ran on something else'
git commit -q --allow-empty --only -m 'Record a gate that passed' -m 'All of `make test` passed on what stands in this commit.' -m "Gate: $counts"
git log -1 --format='%h %s'
