#!/usr/bin/env bash
# Writes a version into each file that has one: new_version.sh VERSION. CHANGELOG.md has its heading already, with the day.
set -eu
cd "$(dirname "$0")/.."
version=${1?the version, as MAJOR.MINOR.PATCH}
[[ $version =~ ^[0-9]+\.[0-9]+\.[0-9]+$ ]] || { echo "new_version: $version is no version of the form MAJOR.MINOR.PATCH" >&2; exit 1; }
day=$(sed -n "s/^## ${version//./\\.} - //p" CHANGELOG.md)
[ -n "$day" ] || { echo "new_version: CHANGELOG.md has no heading '## $version - DAY'" >&2; exit 1; }

echo "$version" > VERSION
sed -i "s/^#define ERD_VERSION \".*\"/#define ERD_VERSION \"$version\"/" bindings/c/erd.h
sed -i "s/^    \"version\": \".*\"/    \"version\": \"$version\"/" bindings/js/package.json
sed -i "s/^\.TH ERD 1 .*/.TH ERD 1 $day \"erd $version\" \"User Commands\"/" docs/erd.1
