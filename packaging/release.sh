#!/usr/bin/env bash
# Puts what is handed on into out/release: each file of release-files.txt, a bill of materials, and SHA256SUMS. It makes every form
# anew, and where one can't be made, or its file is missing or there are two, there is no release.
set -eu
cd "$(dirname "$0")/.."
. packaging/version.sh
release=out/release
rm -rf "$release" "$release.new"

packaging/source.sh
packaging/conformance.sh
packaging/portable/make.sh
python3 web/build.py out/portable/erd.wasm out/portable/erd.html
packaging/deb.sh
packaging/tarball.sh
packaging/tarball.sh aarch64
packaging/library_deb.sh amd64
packaging/library_deb.sh arm64
packaging/library_archives.sh
packaging/portable/javascript.sh
packaging/python.sh

mkdir -p "$release.new"
wrong=()
while read -r pattern; do
    pattern=out/${pattern//@VERSION@/$version}
    mapfile -t found < <(compgen -G "$pattern" | LC_ALL=C sort)
    case ${#found[@]} in
    0) wrong+=("there is no $pattern") ;;
    1) cp -L "${found[0]}" "$release.new" ;;
    *) wrong+=("one file is wanted for $pattern, and there are ${#found[@]}: ${found[*]}") ;;
    esac
done < <(grep -v '^#' packaging/release-files.txt | grep .)
if [ ${#wrong[@]} -gt 0 ]; then
    rm -rf "$release.new"
    printf 'no release: %s\n' "${wrong[@]}" >&2
    exit 1
fi
python3 packaging/bill_of_materials.py "$version" "$SOURCE_DATE_EPOCH" "$(dirname "$(rt doc)")" "$release.new" \
    > "$release.new/erd-$version.spdx.json"
(cd "$release.new" && LC_ALL=C sha256sum -- * > SHA256SUMS)
mv "$release.new" "$release"
cat "$release/SHA256SUMS"
