#!/usr/bin/env bash
# Builds the page and tries it: its parts in Node, and the whole page in Chromium and in Firefox, opened from the disk with the
# network off. With the word --pictures it also writes the pictures of the page in docs/, and with --views it only makes those of
# every view, in out/views. With names of parts of run.py, only these are tried, in the first browser that is there. One line a case.
set -u
. "$(dirname "$0")/../shared/start.sh" || exit 1
page=out/portable/erd.html

. tests/shared/erd_wasm.sh
conformance/make
has_wasm 'the page' || { counts; exit; }
python3 web/build.py "$wasm" "$page" 2> "$work/err"
status=$?
said 'the build' "$([ "$status" -eq 0 ] || last_words "$work/err")"
[ "$status" -eq 0 ] || { counts; exit; }
python3 web/build.py "$wasm" "$work/again.html" 2> "$work/err"
said 'the same bytes each time' "$(cmp "$work/again.html" "$page" 2>&1)"
said 'less than 1 MB' "$([ "$(stat -c %s "$page")" -lt 1000000 ] || echo "$(stat -c %s "$page") bytes")"

parts=("$@")
[ "${1:-}" != --pictures ] || parts=()
[ "${1:-}" != --views ] || parts=(views)
mkdir "$work/others"
python3 -c "
import re, sys
sys.path.insert(0, 'web')
import build
joined = build.joined
build.joined = lambda first: re.sub('const MOST_WITH_NAMES = .*;', 'const MOST_WITH_NAMES = 1;', joined(first))
build.main(sys.argv[1:])" "$wasm" "$work/others/short.html"
said 'the page that knows no names' "$(! cmp -s "$page" "$work/others/short.html" || echo 'it is the same page')"
if command -v node > /dev/null; then
    if [ ${#parts[@]} -eq 0 ]; then
        for name in modules parts lines words shown chosen judged trees ballot_words record_words converted result_told ballots_shown page_told parts_told; do
            node "tests/page/$name.mjs" > "$work/$name.log" 2>&1
            counted "$name" "$work/$name.log"
        done
    fi
    node tests/shared/less_memory.mjs "$wasm" 800 "$work/poor.wasm" \
        && python3 web/build.py "$work/poor.wasm" "$work/others/poor.html"
    said 'the page with less memory' "$([ -e "$work/others/poor.html" ] || echo 'it was not made')"
else
    echo 'skipped the parts of the page in Node: there is no node'
fi

# off COMMAND ..: runs a command without any network but that of this machine with itself
if unshare --net true 2> /dev/null; then
    off() { unshare --net sh -c 'ip link set lo up && exec "$@"' sh "$@"; }
elif unshare --map-root-user --net true 2> /dev/null; then
    off() { unshare --map-root-user --net sh -c 'ip link set lo up && exec "$@"' sh "$@"; }
else
    echo 'skipped switching the network off: unshare may not do that here'
    off() { "$@"; }
fi

export PYTHONDONTWRITEBYTECODE=1
mkdir "$work/pictures"
started=()
for browser in Chromium Firefox; do
    missing=$(python3 -c "
import sys
sys.path.insert(0, 'tests/page')
import browsers
print(' '.join(browsers.$browser.missing()))")
    if [ -n "$missing" ]; then
        echo "skipped the page in $browser: not installed: $missing"
        continue
    fi
    off timeout 1200 python3 tests/page/run.py "$browser" "$page" "$work/others" "$work/$browser" "$work/pictures" "${parts[@]}" \
        > "$work/$browser.log" 2>&1 &
    started+=("$browser")
    [ ${#parts[@]} -eq 0 ] || break
done
wait
for browser in "${started[@]}"; do
    counted "$browser" "$work/$browser.log"
done
if [ "${1:-}" = --pictures ] && [ "$failed" -eq 0 ]; then
    cp "$work"/pictures/*.png docs/
fi
if [ "${1:-}" = --views ]; then
    rm -rf out/views && cp -r "$work/pictures" out/views
fi
counts
