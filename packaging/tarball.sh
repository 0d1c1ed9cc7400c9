#!/usr/bin/env bash
# Makes the tarball of the program, compiled with the profile, with all that `make install` puts beside it:
# out/erd-VERSION-linux-PROCESSOR.tar.gz, for this processor, or for aarch64 once packaging/portable/program.sh has made that program.
#
# usage: tarball.sh [aarch64]
set -eu
cd "$(dirname "$0")/.."
. packaging/version.sh
. packaging/archives.sh
processor=${1:-$(uname -m)}
name=erd-$version-linux-$processor

case $processor in
"$(uname -m)") program=$(packaging/profiled.sh erd) ;;
aarch64) program=out/portable/program-aarch64/erd ;;
*) echo "$0: $processor is no processor of ours" >&2; exit 1 ;;
esac
packaging/page.sh > /dev/null
make --no-print-directory -s install PREFIX=/ DESTDIR="$work/$name" PROGRAM="$program"
mkdir -p out
tarball "$work/$name" "out/$name.tar.gz"
echo "out/$name.tar.gz"
