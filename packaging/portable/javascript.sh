#!/usr/bin/env bash
# Makes the npm package of bindings/js: out/portable/erd-VERSION.tgz. It needs npm (Debian's package npm, or Node's own).
set -eu
cd "$(dirname "$0")/../.."
. packaging/version.sh
made=$PWD/out/portable
command -v npm > /dev/null || { echo "$0: there is no npm: install the package npm" >&2; exit 1; }
[ -e "$made/erd.wasm" ] || packaging/portable/wasm.sh

work=$(mktemp -d)
trap 'rm -rf "$work"' EXIT
mkdir "$work/erd"
cp -R bindings/js/. "$work/erd"
cp LICENSE-MIT LICENSE-APACHE THIRD-PARTY-NOTICES "$made/erd.wasm" "$work/erd"
chmod 644 "$work/erd/erd.wasm"
dated "$work/erd"
(cd "$work/erd" && HOME=$work npm pack --silent --offline --ignore-scripts --no-update-notifier --pack-destination "$made" > "$work/packed")
[ -e "$made/erd-$version.tgz" ] || { echo "$0: npm made $(cat "$work/packed") in place of erd-$version.tgz" >&2; exit 1; }
