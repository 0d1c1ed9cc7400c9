#!/usr/bin/env bash
# Holds the version of each file against VERSION and the changelog, looks for a version that stands anywhere else, and tries
# packaging/new_version.sh in a copy. One line a case.
set -u
. "$(dirname "$0")/../shared/start.sh" || exit 1
. tests/shared/commands.sh
version=$(cat VERSION)
day=$(sed -n "s/^## $version - //p" CHANGELOG.md)
new=98.7.$((5 + 1))
have='VERSION bindings/c/erd.h bindings/js/package.json docs/erd.1'

# with VERSION: the files that have this version, in a line; those that others wrote, or that tell the past, have what they have
with() {
    git grep -lF "$1" -- ':!CHANGELOG.md' ':!third_party' ':!THIRD-PARTY-NOTICES' ':!conformance/cases' ':!crates' | tr '\n' ' ' | sed 's/ $//'
}

said 'VERSION has a version' "$([[ $version =~ ^[0-9]+\.[0-9]+\.[0-9]+$ ]] || echo "it has '$version'")"
equal 'the first headings of the changelog' "$(sed -n 's/^## //p' CHANGELOG.md | head -n 2 | tr '\n' ',')" "Unreleased,$version - $day,"
said 'the day of the changelog' "$(date -u -d "$day" 2>&1 > /dev/null)"
command -v git > /dev/null && git rev-parse --verify -q HEAD > /dev/null || { echo 'skipped where the version stands: there is no git'; counts; exit; }
equal 'the files that have the version' "$(with "$version")" "$have"

git clone -q --no-hardlinks . "$work/copy" && cp $have CHANGELOG.md "$work" && for file in $have packaging/new_version.sh CHANGELOG.md; do
    cp "$file" "$work/copy/$file"
done
run "$work/copy/packaging/new_version.sh" "$version"
expect 'the version once more' 0
why=''
for file in $have; do
    cmp -s "$file" "$work/copy/$file" || why+="$file has changed; "
done
said 'the files have it as it is written' "$why"
run "$work/copy/packaging/new_version.sh" $new
expect 'a version that the changelog has not' 1
equal 'what is said of it' "$(cat "$work/err")" "new_version: CHANGELOG.md has no heading '## $new - DAY'"
equal 'the files stay' "$(cd "$work/copy" && with "$version")" "$have"
sed -i "s/^## Unreleased\$/&\\n\\n## $new - 2031-02-03/" "$work/copy/CHANGELOG.md"
run "$work/copy/packaging/new_version.sh" $new
expect 'a new version' 0
equal 'the files that have the new version' "$(cd "$work/copy" && with $new)" "$have"
equal 'the files that have the old version' "$(cd "$work/copy" && with "$version") none" ' none'
equal 'the manual page' "$(grep '^\.TH ' "$work/copy/docs/erd.1")" .TH\ ERD\ 1\ 2031-02-03\ \"erd\ "$new"\"\ \"User\ Commands\"
for word in 98.7 "$new.5" "v$new" "$new-1"; do
    run "$work/copy/packaging/new_version.sh" "$word"
    expect "what is no version: $word" 1
    equal "it is said: $word" "$(cat "$work/err")" "new_version: $word is no version of the form MAJOR.MINOR.PATCH"
done
sed -i "s/^## $new - /## ${new//./x} - /" "$work/copy/CHANGELOG.md"
run "$work/copy/packaging/new_version.sh" $new
expect 'a heading that is another one' 1
counts
