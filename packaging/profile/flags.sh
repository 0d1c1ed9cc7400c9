#!/usr/bin/env bash
# Prints the flags of clang for a release, one a line: they name the profile, which it makes of packaging/profile/erd.proftext, as
# out/profile/erd.profdata. With PROFILE=no it prints none.
set -eu
cd "$(dirname "$0")/../.."
[ "${PROFILE:-}" != no ] || exit 0
. packaging/profile/tools.sh
mkdir -p out/profile
"$profdata" merge packaging/profile/erd.proftext -o "out/profile/$$.profdata"
mv "out/profile/$$.profdata" out/profile/erd.profdata
echo "-fprofile-use=$PWD/out/profile/erd.profdata"
