#!/usr/bin/env bash
# Makes the program of a release, which is compiled with a profile, and holds its answers against the conformance suite, against the
# reference program on random reports and pairs, and on files, pipes and closed descriptors. tests/measures/instructions.py counts its
# instructions. Each function that has changed since the profile was made is compiled without it, so a note says how many these are.
# One line a case.
set -u
. "$(dirname "$0")/../shared/start.sh" || exit 1
. tests/shared/commands.sh
if ! command -v "llvm-profdata-$("$(dirname "$(rt doc)")/toolchain/bin/clang" -dumpversion | cut -d . -f 1)" > /dev/null; then
    echo 'skipped the program with a profile: there is no llvm-profdata of the version of the kit'
    run env -u PROFILE packaging/profiled.sh erd
    said 'it is not made without one' "$([ "$status" -ne 0 ] && [ ! -s "$work/out" ] || last_words "$work/out")"
    run env PROFILE=no packaging/profiled.sh erd
    expect_text 'where no profile is asked for, the plain program is handed on' 0 erd
    counts
    exit
fi

# What is made is handed on again, until the code or the profile is another one. A compiler of our own, in a folder, counts.
stale=$work/stale
mkdir -p "$stale/packaging/profile" "$stale/crates/erd/out/flagged"
cp packaging/profiled.sh "$stale/packaging"
printf '#!/bin/sh\necho -O3\n' > "$stale/packaging/profile/flags.sh"
echo counts > "$stale/packaging/profile/erd.proftext"
printf '#!/bin/sh\necho made >> made\ncp erd crates/erd/out/flagged\n: > crates/erd/out/flagged/warnings\n' > "$stale/packaging/compile.sh"
chmod +x "$stale"/packaging/{,profile/}*.sh
for row in 'erd code 1' 'erd code 1' 'erd other-code 2' 'packaging/profile/erd.proftext other-counts 3' 'out/profiled/erd damaged 4'; do
    read -r file text wanted <<< "$row"
    echo "$text" > "$stale/$file"
    run env -u PROFILE "$stale/packaging/profiled.sh" erd
    equal "how often it was made: $file, $text" "$(wc -l < "$stale/made")" "$wanted"
done
equal 'what is handed on then' "$(cat "$stale/out/profiled/erd")" other-code

run packaging/profiled.sh erd
expect_text 'the program with a profile' 0 out/profiled/erd
[ "$status" -eq 0 ] || { counts; exit; }
echo "note: $(cat "$work/err")"
export ERD=$PWD/out/profiled/erd
run conformance/run "$ERD"
expect 'the conformance suite' 0
said "each case of the suite ($(tail -n 1 "$work/out"))" "$(tail -n 1 "$work/out" | grep -v ' 0 failed$')"
python3 tests/program/agrees_with_reference.py 500 > "$work/agrees" 2>&1
counted 'random reports and pairs' "$work/agrees"
tests/program/command.sh > "$work/command" 2>&1
counted 'files, pipes and closed descriptors' "$work/command"
run env PROFILE=no packaging/profiled.sh erd
expect_text 'where no profile is asked for, the plain program is handed on' 0 erd
equal 'and it says so' "$(cat "$work/err")" 'erd is handed on as it is: PROFILE=no, so it is compiled without a profile'

counts
