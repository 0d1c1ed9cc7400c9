#!/usr/bin/env bash
# Tries the Python package: the wheel of this machine is installed in a fresh environment, and its tests run there.
set -u
. "$(dirname "$0")/../shared/start.sh" || exit 1
. tests/shared/commands.sh

for package in pytest setuptools wheel venv; do
    /usr/bin/python3 -c "import $package" 2> /dev/null || { echo "skipped the Python package: there is no python3-$package"; counts; exit; }
done
# A wheel is for systems whose C library is as new as the newest version that its library needs: 2.34 is newer than 2.4.
objdump() { printf '0 g DF *UND* 0 (GLIBC_%s) f\n' 2.4 2.34 2.2.5 2.17 2.9; }
eval "$(sed -n '/^needed() {/,/^}/p' packaging/python.sh)"
equal 'the newest version of the C library' "$(needed liberd.so.0)" 2_34
objdump() { printf '0 g DF *UND* 0 (GLIBC_%s) f\n' 2.4 2.2.5 2.9; }
equal 'no name of a wheel is for an older one than 2.17' "$(needed liberd.so.0)" 2_17
unset -f objdump needed
packaging/python.sh > "$work/wheels" || { echo "FAILED  no wheel was made"; failed=1; counts; exit; }
wheel=$(ls out/python/*"$(uname -m)".whl)
# pytest and distributed are those of the machine; the package is that of the wheel
/usr/bin/python3 -m venv --system-site-packages "$work/venv" \
    && "$work/venv/bin/python" -m pip -q install --no-index --no-deps --disable-pip-version-check "$wheel" \
    || { echo "FAILED  the wheel cannot be installed"; failed=1; counts; exit; }
/usr/bin/python3 -c 'import distributed' 2> /dev/null || echo 'skipped the Dask cluster: there is no python3-distributed'
conformance/make
ERD_TOP=$PWD PYTHONDONTWRITEBYTECODE=1 "$work/venv/bin/python" -m pytest -q -p no:cacheprovider bindings/python/tests \
    --basetemp="$work/tests" > "$work/log" 2>&1
status=$?
grep '^E  ' "$work/log" | head -n 40
grep -E '^(FAILED|ERROR)' "$work/log"
last=$(tail -n 1 "$work/log")
[[ $last =~ ([0-9]+)\ passed ]] && passed=${BASH_REMATCH[1]}
[[ $last =~ ([0-9]+)\ failed ]] && failed=${BASH_REMATCH[1]}
[[ $last =~ ([0-9]+)\ error ]] && failed=$((failed + BASH_REMATCH[1]))
[ "$status" -eq 0 ] || [ "$failed" -gt 0 ] || { cat "$work/log"; failed=1; }

python3 tests/forms/archives.py out/python/*.whl > "$work/archives.log"
counted 'what is in the wheels' "$work/archives.log"

# The table of command lines, beside the program.
if [ -x erd ]; then
    python3 tests/forms/command_lines.py --beside ./erd 'the command' package,python "$work/venv/bin/python" -m erd > "$work/lines.log"
    counted 'the table of command lines' "$work/lines.log"
else
    echo 'skipped the program beside the command: make erd has not been run'
fi

python3 tests/forms/command_lines.py --command many erd-many package,python "$work/venv/bin/erd-many" > "$work/lines.log"
counted 'the table of statuses: erd-many' "$work/lines.log"

# The program of its page writes what stands beside it.
mkdir "$work/page"
block bindings/python/README.md python 1 > "$work/page/page.py"
cp examples/county.vendor-[ab].json "$work/page"
run env -C "$work/page" "$work/venv/bin/python" page.py
expect_text 'the program of its page' 0 "$(remarks < "$work/page/page.py" | sed -n 2p)"
python3 - examples/county.vendor-a.json > "$work/page/county.vendor-a.json" <<'END'
import json, sys
report = json.load(open(sys.argv[1], encoding='utf-8'))
report['Election'][0]['Candidate'][2]['PartyId'] = 'none'
json.dump(report, sys.stdout)
END
run env -C "$work/page" "$work/venv/bin/python" page.py
expect_text 'the program of its page: a fault' 0 "$(remarks < "$work/page/page.py" | head -n 1)"$'\nFalse None'
counts
