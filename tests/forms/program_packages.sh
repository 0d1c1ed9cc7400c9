#!/usr/bin/env bash
# Makes the Debian package and the tarball, looks into them, and installs the package into an empty root. One line a case.
set -u
. "$(dirname "$0")/../shared/start.sh" || exit 1
. tests/shared/commands.sh
. tests/shared/erd_wasm.sh
PATH=$PATH:/usr/sbin:/sbin
version=$(cat VERSION)
if ! command -v dpkg-deb > /dev/null || ! command -v dpkg-shlibdeps > /dev/null; then
    echo 'skipped the package: there is no dpkg-deb, or no dpkg-shlibdeps'
    counts
    exit
fi
package=erd_$version-1_$(dpkg --print-architecture).deb
tarball=erd-$version-linux-$(uname -m)

has_wasm 'the package' || { counts; exit; }

# field NAME: a field of the package
field() {
    dpkg-deb --field "out/$package" "$1"
}

# installing WORD ..: dpkg on the empty root, where the libraries of the machine serve
installing() {
    run dpkg --root="$work/root" --force-not-root --force-depends --force-script-chrootless --log=/dev/null "$@"
}

run make --no-print-directory deb tarball
expect 'make deb tarball' 0
program=$(packaging/profiled.sh erd 2> /dev/null)

mkdir "$work/first"
cp "out/$package" "out/$tarball.tar.gz" "$work/first"
run make --no-print-directory deb tarball
same_bytes 'the package has the same bytes again' "out/$package" "$work/first/$package"
same_bytes 'the tarball has the same bytes again' "out/$tarball.tar.gz" "$work/first/$tarball.tar.gz"

# The package.
equal 'the name of the package' "$(field Package)" erd
equal 'the version of the package' "$(field Version)" "$version-1"
equal 'for which machine it is' "$(field Architecture) $(field Section) $(field Priority)" "$(dpkg --print-architecture) utils optional"
equal 'what else is of use' "$(field Suggests)" 'bubblewrap, python3, www-browser'
described 'the package' "out/$package" ''
linked=$(ldd "$program" | sed -n 's/.* => \(\/[^ ]*\) .*/\1/p')
why=''
for library in $linked; do
    owner=$(dpkg --search "*/$(basename "$library")" 2> /dev/null | sed -n 's/^\([^:]*\):.*/\1/p' | sort -u)
    [ -n "$owner" ] && grep -qwF "$owner" <<< "$(field Depends)" || why+="$library is of '$owner'; "
done
said "the package depends on what it is linked with ($(field Depends))" "$why"
listed 'the files of the package, their modes and owners' packaging/files/erd.deb.txt . \
    < <(dpkg-deb --fsys-tarfile "out/$package")
listed 'what the package says to dpkg' packaging/files/erd.deb-control.txt . \
    < <(dpkg-deb --ctrl-tarfile "out/$package")
if had lintian; then
    run lintian --no-cfg --fail-on error,warning "out/$package"
    expect_text 'lintian has nothing to say' 0 ''
else
    echo "skipped lintian has nothing to say: there is no lintian, and it can't be installed here"
fi

# An empty root.
mkdir -p "$work/root/var/lib/dpkg/info" "$work/root/var/lib/dpkg/updates"
touch "$work/root/var/lib/dpkg/status"
installing --install "out/$package"
expect 'dpkg installs it into an empty root' 0
equal 'dpkg knows it there' "$(dpkg-query --admindir="$work/root/var/lib/dpkg" -W -f '${db:Status-Status}' erd)" installed
usr=$work/root/usr
same_bytes 'the program is the one of a release' "$usr/bin/erd" "$program"
works 'from the package' "$usr/bin/erd" "$usr/share/doc/erd/examples"
same_bytes 'the manual page' docs/erd.1 <(gzip -dc "$usr/share/man/man1/erd.1.gz")
same_bytes 'the changelog' CHANGELOG.md <(gzip -dc "$usr/share/doc/erd/changelog.gz")
equal 'the version in the changelog of Debian' "$(version_told "$usr/share/doc/erd")" "erd $version-1 $version"
noted "$usr/share/doc/erd"
equal 'where the Apache License stands' "$(grep -c '^ /usr/share/common-licenses/Apache-2.0\.$' "$usr/share/doc/erd/copyright")" 1
equal 'the day in the changelog of Debian' "$(date -u -d "$(gzip -dc "$usr/share/doc/erd/changelog.Debian.gz" | sed -n 's/^ -- .*>  //p')" +%F)" \
    "$(sed -n "s/^## $version - //p" CHANGELOG.md)"
installing --purge erd
expect 'dpkg removes it' 0
said 'no file of it is left' "$(find "$work/root" ! -type d ! -path '*/var/lib/dpkg/*' | head -n 3)"

# The tarball.
listed 'the files of the tarball, their modes and owners' packaging/files/erd.tar.txt "$tarball" \
    < <(gzip -dc "out/$tarball.tar.gz")
run tar --extract --gzip --file "out/$tarball.tar.gz" --directory "$work"
expect 'tar unpacks the tarball' 0
works 'from the tarball' "$work/$tarball/bin/erd" "$work/$tarball/share/doc/erd/examples"

# Another hands the package on.
run env MAINTAINER='Ann Other <ann@other.example>' packaging/deb.sh
equal 'another hands it on' "$(field Maintainer)" 'Ann Other <ann@other.example>'
equal 'and says so in the changelog of Debian' "$(dpkg-deb --fsys-tarfile "out/$package" | tar --extract --to-stdout ./usr/share/doc/erd/changelog.Debian.gz |
    gzip -dc | sed -n 's/^ -- \(.*>\)  .*/\1/p')" 'Ann Other <ann@other.example>'
cp "$work/first/$package" out
# What nothing says it is linked with has no package.
mkdir -p "$work/alone"
printf '#!/bin/sh\necho "dpkg-shlibdeps: error: no library" >&2\nexit 2\n' > "$work/alone/dpkg-shlibdeps"
chmod +x "$work/alone/dpkg-shlibdeps"
run env PATH="$work/alone:$PATH" packaging/deb.sh
expect 'a program of which nobody knows what it is linked with' 1
equal 'what is said of it' "$(tail -n 1 "$work/err")" 'dpkg-shlibdeps: error: no library'

counts
