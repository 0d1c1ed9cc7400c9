#!/usr/bin/env bash
# Makes the conformance suite to hand on: out/erd-VERSION-conformance.tar.gz, with a folder for each case and the runner.
set -eu
cd "$(dirname "$0")/.."
. packaging/version.sh
. packaging/archives.sh
name=erd-$version-conformance
mkdir -p out
conformance/make "$work/$name"
cp LICENSE-MIT LICENSE-APACHE "$work/$name"
tarball "$work/$name" "out/$name.tar.gz"
echo "out/$name.tar.gz"
