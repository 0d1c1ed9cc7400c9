#!/usr/bin/env bash
# Makes packaging/profile/erd.proftext anew: which branches of the proved code are taken how often, counted by clang in the program and
# in the C library on reports of several shapes. The profile steers how clang lays out and inlines the code of a release, and no more:
# what the code computes stays the same, and code that has no counts is compiled as without a profile. Make it anew when the code has
# changed much: packaging/profiled.sh tells how many functions are newer.
#
# The crates below `erd` and `erd_c` are those that are proved here. It needs the packages libclang-rt-22-dev and llvm-22.
set -eu
cd "$(dirname "$0")/../.."
. packaging/profile/tools.sh
work=$(mktemp -d)
trap 'rm -rf "$work"' EXIT
export LLVM_PROFILE_FILE=$work/%p-%m.profraw

# instrumented CRATE: compiles the crate with counters
instrumented() {
    packaging/compile.sh "$1" -fprofile-generate > "$work/log" 2>&1 || { tail -n 20 "$work/log" >&2; exit 1; }
}

instrumented erd
program=$PWD/crates/erd/out/flagged/erd
instrumented erd_c
packaging/static_library.sh crates/erd_c/out/flagged/liberd_c.a "$work/liberd.a"
runtime=$(packaging/profile/runtime.sh "$work")
mapfile -t linked <<< "$runtime"
library=$work/library
"${CC:-cc}" -std=c11 -O2 tests/library/caller.c "$work/liberd.a" "${linked[@]}" -lpthread -o "$library"

# The reports: two vendors of a county; several elections; other languages, headers and carried members; and reports with faults.
for vendor in a b; do
    python3 "$reports/county.py" 14 "$vendor" > "$work/county.$vendor.json"
    cp "examples/two-elections.vendor-$vendor.json" "$work/elections.$vendor.json"
    cp "examples/county.vendor-$vendor.json" "$work/small.$vendor.json"
done
python3 "$reports/larger.py" 20 examples/county-general.json > "$work/general.a.json"
python3 "$reports/larger.py" 20 examples/county-general.json > "$work/general.b.json"
echo >> "$work/general.b.json"
python3 "$reports/larger.py" 10 examples/two-elections.vendor-b.json > "$work/many.a.json"
cp "$work/many.a.json" "$work/many.b.json"
sed 's/"PartyId": *"party-1"/"PartyId":"nobody"/' "$work/county.a.json" > "$work/unresolved.json"
sed 's/"VotesAllowed": *1/"VotesAllowed":1.5/' "$work/general.a.json" > "$work/shape.json"

for left in "$work"/*.a.json; do
    right=${left%.a.json}.b.json
    for report in "$left" "$right"; do
        "$program" check "$report" > "$work/out"
        "$program" canon "$report" > "$work/out"
        "$library" check-data "$report" > "$work/out"
        "$library" canon "$report" > "$work/out"
    done
    "$program" compare "$left" "$right" > "$work/out" || true
    "$library" compare-data "$left" "$right" > "$work/out" || true
done
for report in "$work/unresolved.json" "$work/shape.json"; do
    "$program" check "$report" > "$work/out" || true
    "$library" check-data "$report" > "$work/out" || true
done
for case in conformance/cases/bases/*.json; do
    "$program" check "$case" > "$work/out" || true
    "$program" canon "$case" > "$work/out" 2>&1 || true
done

"$profdata" merge "$work"/*.profraw -o "$work/erd.profdata"
"$profdata" merge -text "$work/erd.profdata" -o packaging/profile/erd.proftext
wc -c packaging/profile/erd.proftext
