#!/usr/bin/env bash
# Stops where one of these tools is missing, and says how to get each: needed.sh TOOL .. The kit's `rt` needs python3.
set -u
[[ " $* " != *" rt "* || " $* " = *" python3 "* ]] || set -- "$@" python3

# from TOOL: where the tool comes from
from() {
    case $1 in
    rt) echo 'of the Rattle kit: the README says how to get it' ;;
    cc) echo "in Debian's package gcc" ;;
    ar | objdump) echo "in Debian's package binutils" ;;
    cmp) echo "in Debian's package diffutils" ;;
    dpkg-deb) echo "in Debian's package dpkg" ;;
    dpkg-shlibdeps) echo "in Debian's package dpkg-dev" ;;
    node) echo "in Debian's package nodejs" ;;
    sha256sum) echo "in Debian's package coreutils" ;;
    *) echo "in Debian's package $1" ;;
    esac
}

missing=0
for tool in "$@"; do
    command -v "$tool" > /dev/null || { echo "make: there is no $tool, which is $(from "$tool")" >&2; missing=1; }
done
exit "$missing"
