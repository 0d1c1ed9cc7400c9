#!/usr/bin/env bash
# Makes the archive of the source: out/erd-VERSION-source.tar.gz, as git has it in the last commit. A copy without git has all that is not made.
set -eu
cd "$(dirname "$0")/.."
. packaging/version.sh
. packaging/archives.sh
name=erd-$version-source
mkdir -p out "$work/$name"
if git rev-parse --verify -q HEAD > /dev/null 2>&1; then
    git archive HEAD | tar --extract --directory "$work/$name"
else
    tar --create --exclude=./out --exclude=./crates/*/out --exclude=./.git --exclude=node_modules --exclude=__pycache__ . \
        | tar --extract --directory "$work/$name"
fi
tarball "$work/$name" "out/$name.tar.gz"
echo "out/$name.tar.gz"
