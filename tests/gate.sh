#!/usr/bin/env bash
# Every check of the repository. At the end stand what each part cost, and what failed and what was skipped; the last line
# is 'N passed, M failed' for all of them together. CONTRIBUTING.md says how they run.
set -u
cd "$(dirname "$0")/.." || exit 1
. tests/shared/counting.sh
. tests/gate_parts.sh
program=crates/erd/out/erd
tests=crates/erd_rows/out/erd_rows_tests
tried=''

# The parts run beside `rt ci`, each as soon as the crates are proved that it needs. At its end `rt ci` puts the libraries that
# earlier checks have kept in the place of those that it has proved. Where there are such libraries, or little memory, what needs a
# crate waits for that end.
is_beside=yes
[ "$(awk '/^MemAvailable:/ { print int($2 / 1000000) }' /proc/meminfo)" -ge 12 ] || is_beside=''
! compgen -G 'crates/*/out/rlib' > /dev/null || is_beside=''

# is_proved CRATE: whether `rt ci` says so
is_proved() {
    grep -aqE "^rt: $1 (proved$|is kept: )" "$proof/said"
}

# proved CRATE ..: waits until `rt ci` has proved these crates
proved() {
    local crate
    [ -n "$is_beside" ] || ended tests/prove.sh
    for crate in "$@"; do
        until is_proved "$crate" || [ -e "$proof/status" ] || [ -e "$proof/lost" ]; do sleep 2; done
        is_proved "$crate" || return
    done
}

# program: waits until the program is proved and compiled, and takes it
program() {
    proved erd && [ -x "$program" ] || return
    (
        flock 9
        [ -e "$results/taken" ] || { mkdir -p out && cp "$program" out/erd.new && mv out/erd.new erd && : > "$results/taken"; }
    ) 9> "$results/lock"
}

# packages: waits until the packages of Debian are installed. Without llvm-profdata, what is handed on is made without a profile, and
# tests/forms/profiled_program.sh says so.
packages() {
    until [ -e "$results/packages" ]; do sleep 1; done
    packaging/profile/flags.sh > /dev/null 2>&1 || export PROFILE=no
}

# tests: waits until `rt ci` has ended, and has left the tests
tests() {
    ended tests/prove.sh
    [ -x "$tests" ]
}

# library: waits until the C library is made, which the part that tries it begins with
library() {
    local folder
    folder=$(dirname "$(grep -lxF tests/library/c_library.sh "$results"/[0-9]*/command)")
    until grep -aqE '^(ok|FAILED) +make library' "$folder/said" 2> /dev/null || [ -e "$folder/status" ] || [ -e "$folder/lost" ]; do
        sleep 2
    done
}

# libraries CRATE: the crates of the repository that it names
libraries() {
    sed -n "s/#.*//; s/^$1\( [a-z]*\)*:\(.*\)/\2/p" crates.txt | grep -o 'erd_[a-z]*' | tr '\n' ' '
}

# edits KIND CRATE ..: begins to try the wrong bodies of the gate, those of one crate after another, in a lane of this kind
edits() {
    local crate steps=()
    for crate in "${@:2}"; do
        steps+=(packages: "proved: $(libraries "$crate")" "tests/bodies/try_wrong.py --gate $crate")
        tried+=" $crate "
    done
    "$1" "${steps[@]}"
}

# tests/forms/other_machines.sh and other_programs.sh make each form anew; the release in this folder takes these, and that in another folder
# makes them once more, but for what clang has made of the same module. That clang makes the program and the C library alike in two folders
# is seen by tests/forms/same_bytes.sh; for the forms for other machines the gate looks only whether they have the path of a folder.
export FORMS_ARE_MADE=yes KEPT_OBJECTS=$results/objects

# What `rt ci` has proved, compiled and run is what the scripts run, and a release takes the forms that are made here, so nothing older may
# stand there. Some kits take no repository with links either, as the folders of these forms have.
rm -f "$program" "$tests"
rm -rf out/portable/{linux,windows,program}-* out/portable/erd.wasm

echo "make test with $(rt version), on $(nproc) processors. What each part says goes to out/gate, and its counts and what failed stand here."
packaging/room.sh
[ -n "$is_beside" ] || echo 'notice: what needs a crate waits for the end of the proofs, since less than 12 GB are free or earlier libraries are kept'
# The first crates are proved while the packages are installed. All else waits, since an installation may replace what it runs on.
{
    [ "${INSTALL:-}" = no ] || [ "$(id -u)" -ne 0 ] || packaging/install_packages.sh
    : > "$results/packages"
} &
echo 'Once the packages are installed, the parts that need no proof tell for a minute or two whether pages, scripts and lists fit the code.'
first 'packages:' 'python3 tests/pages/facts_and_links.py' 'python3 tests/pages/definitions.py' 'python3 tests/pages/closures.py' \
    'python3 tests/pages/exists.py' 'python3 tests/pages/documented.py' 'python3 tests/pages/quotes.py' 'python3 tests/pages/gate_times.py' \
    'tests/pages/commit_message.sh' 'tests/pages/version.sh' 'tests/forms/signed_sums.sh' 'python3 packaging/notices.py' \
    'python3 tests/bodies/self_test.py' 'tests/bodies/the_gate.sh' 'tests/forms/small_scripts.sh' 'tests/forms/made_anew.sh' \
    'tests/forms/parts_alone.sh' 'python3 tests/forms/release_papers.py' \
    'conformance/run --in-process reference/erd_reference.py' \
    'conformance/run --differences --in-process reference/erd_reference.py' \
    'conformance/run --entries --in-process reference/erd_reference.py' 'tests/bodies/try_wrong.py programs' \
    'python3 tests/pages/site.py' 'python3 tests/measures/pace.py'
echo 'Beside them `rt ci` proves the crates from the lowest to the highest, and names each one when it is proved.'
proof 'tests/prove.sh'

# While erd_check is proved, nothing else is ready: what nothing waits for has a processor then. Of the wrong bodies below erd_canon the gate
# tries that of a call on which no crate above rests: where another contract says too little, a proof above fails.
between 'packages:' 'tests/forms/make_try.sh'
edits between erd_meaning erd_canon
edits lane erd_program
for crate in $(grep -l '^gate: ' $(grep -lx 'noticed by: a contract' tests/bodies/lists/*.txt) | xargs -n 1 basename -s .txt); do
    [[ $tried == *" $crate "* ]] || missing "tests/bodies/lists/$crate.txt: the wrong bodies of the gate are not tried"
done

lane 'packages:' 'proved: erd_canon' 'tests/library/c_library.sh' 'python3 tests/library/lists_agree.py 500' 'python3 tests/library/ballots_agree.py 200'

# The packages of both languages take the forms that are made first, and stand beside the programs for other machines. A release makes
# the packages too, so it comes when they are done. It ends the longest lane, and other lanes give way to these two.
first 'packages:' 'program:' 'library:' 'tests/forms/other_machines.sh' 'tests/forms/other_programs.sh' 'ended: tests/fuzz/fuzz.sh' \
    'tests/forms/program_packages.sh' 'tests/forms/release_files.sh' 'tests/forms/installed_alone.sh'
first 'packages:' 'ended: tests/forms/other_machines.sh' 'ended: tests/library/c_library.sh' 'tests/forms/language_examples.sh' \
    'tests/forms/javascript_package.sh' 'tests/forms/python_package.sh' 'python3 tests/prepare/steps.py' 'tests/fuzz/fuzz.sh'

# The page needs erd.wasm alone, and the wrong lines need what the other forms have made, so they run beside the packages.
lane 'packages:' 'ended: tests/forms/other_machines.sh' 'tests/page/page.sh' 'ended: tests/forms/other_programs.sh' \
    'ended: tests/fuzz/fuzz.sh' 'tests/bodies/try_wrong.py --gate lines'

lane 'packages:' 'program:' 'tests/program/command.sh' 'tests/pages/manual.sh' 'python3 tests/pages/examples.py' 'tests/program/contrib.sh' \
    'python3 tests/program/agrees_with_reference.py 500' 'python3 tests/program/same_meaning.py' \
    'python3 tests/program/agrees_on_preferences.py' 'conformance/run ./erd' 'tests/program/limits.sh' 'tests/program/confined.sh' \
    'tests/forms/make_install.sh' 'python3 tests/measures/crowding.py' 'python3 tests/measures/orders.py' \
    'python3 tests/measures/hostile_ballots.py' 'python3 tests/measures/growth.py' 'ended: tests/library/c_library.sh' \
    'tests/forms/profiled_program.sh' 'python3 tests/measures/instructions.py' 'tests/forms/same_bytes.sh' 'tests:' \
    'tests/program/refusals.sh' 'python3 tests/measures/pace.py'

await
# With the proofs that an earlier run has kept, the first part takes some seconds, and CONTRIBUTING.md says what it takes from nothing.
! grep -aqE '^rt: [a-z_]+ is kept: ' "$proof/said" || : > "$proof/is_cheaper"
sum_up
