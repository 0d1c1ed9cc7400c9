#!/usr/bin/env bash
# Makes the Debian packages of the shared library that stands in out/portable/linux-PROCESSOR, liberd0 and liberd-dev, for amd64 or
# arm64. MAINTAINER names who hands them on.
set -eu
cd "$(dirname "$0")/.."
. packaging/version.sh
. packaging/debian/packages.sh
architecture=${1?the architecture, amd64 or arm64}
case $architecture in
amd64) processor=x86_64 ;;
arm64) processor=aarch64 ;;
*) echo "$0: $architecture is no architecture of ours" >&2; exit 1 ;;
esac
made=out/portable/linux-$processor
work=$(mktemp -d)
trap 'rm -rf "$work"' EXIT
below=usr/lib/$processor-linux-gnu

soname=liberd.so.${version%%.*}

# c_library FILE: the package of the C library, in the oldest version that has what the file asks for
c_library() {
    local newest
    newest=$(objdump -T "$1" | grep -o 'GLIBC_[0-9.]*' | sed 's/GLIBC_//' | sort -uV | tail -n 1)
    echo "libc6 (>= $newest)"
}

# overridden ROOT PACKAGE: what lintian need not say
overridden() {
    mkdir -p "$1/usr/share/lintian/overrides"
    sed "s/^erd: /$2: /" packaging/debian/overrides | grep -B 1 'initial-upload' > "$1/usr/share/lintian/overrides/$2"
}

root=$work/liberd0
mkdir -p "$root/$below" "$root/DEBIAN"
cp -P "$made/liberd.so.$version" "$made/$soname" "$root/$below"
chmod 644 "$root/$below/liberd.so.$version"
documented "$root" liberd0
gzip -9nc CHANGELOG.md > "$root/usr/share/doc/liberd0/changelog.gz"
overridden "$root" liberd0
echo 'activate-noawait ldconfig' > "$root/DEBIAN/triggers"
echo "liberd ${version%%.*} liberd0 (>= $version)" > "$root/DEBIAN/shlibs"
{
    echo "$soname liberd0 #MINVER#"
    sed "s/.*/ &@Base $version/" <(LC_ALL=C sort packaging/portable/exports.txt)
} > "$root/DEBIAN/symbols"
packed "$root" packaging/debian/liberd0 "$architecture" "$(c_library "$made/$soname")"

root=$work/liberd-dev
mkdir -p "$root/$below/pkgconfig" "$root/usr/include"
cp -P "$made/liberd.so" "$made/liberd.a" "$root/$below"
cp "$made/erd.h" "$root/usr/include"
sed "/^#/d; s|^prefix=.*|prefix=/usr|; s|^libdir=.*|libdir=\${prefix}/lib/$processor-linux-gnu|; s|^includedir=.*|includedir=\${prefix}/include|" \
    "$made/pkgconfig/erd.pc" > "$root/$below/pkgconfig/erd.pc"
documented "$root" liberd-dev
gzip -9nc CHANGELOG.md > "$root/usr/share/doc/liberd-dev/changelog.gz"
overridden "$root" liberd-dev
packed "$root" packaging/debian/liberd-dev "$architecture" "liberd0 (= $revision)"
