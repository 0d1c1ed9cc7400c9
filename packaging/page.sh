#!/usr/bin/env bash
# Prints the file of the page for a browser, out/portable/erd.html, which it makes where there is none.
set -eu
cd "$(dirname "$0")/.."
page=out/portable/erd.html
if [ ! -e "$page" ]; then
    [ -e out/portable/erd.wasm ] || packaging/portable/wasm.sh >&2
    python3 web/build.py out/portable/erd.wasm "$page" >&2
fi
echo "$page"
