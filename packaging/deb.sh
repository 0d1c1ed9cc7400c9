#!/usr/bin/env bash
# Makes the Debian package of the program, compiled with the profile: out/erd_VERSION_ARCHITECTURE.deb. MAINTAINER names who hands it
# on.
set -eu
cd "$(dirname "$0")/.."
. packaging/version.sh
. packaging/debian/packages.sh
work=$(mktemp -d)
trap 'rm -rf "$work"' EXIT
root=$work/root
documents=$root/usr/share/doc/erd

program=$(packaging/profiled.sh erd)
packaging/page.sh > /dev/null
make --no-print-directory -s install PREFIX=/usr DESTDIR="$root" PROGRAM="$program"

# Debian has the licenses in `copyright`, and the changelogs and manual pages compressed.
rm "$documents"/LICENSE-* "$documents/THIRD-PARTY-NOTICES"
mv "$documents/CHANGELOG.md" "$documents/changelog"
documented "$root" erd
gzip -9n "$documents/changelog" "$root/usr/share/man/man1/erd.1"
mkdir -p "$root/usr/share/zsh/vendor-completions" "$root/usr/share/lintian/overrides"
mv "$root/usr/share/zsh/site-functions/_erd" "$root/usr/share/zsh/vendor-completions"
rmdir "$root/usr/share/zsh/site-functions"
cp packaging/debian/overrides "$root/usr/share/lintian/overrides/erd"

depends=$(depends "$root" usr/bin/erd)
packed "$root" packaging/debian/control "$(dpkg --print-architecture)" "$depends"
