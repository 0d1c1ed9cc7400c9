#!/usr/bin/env bash
# Prints the path of the program or of the C library of a release: the proved code of ./erd, or of out/c/liberd.a, compiled once more
# with the profile of packaging/profile/erd.proftext. The profile steers how clang lays out and inlines the code, and no more. It
# makes the file where that is older than what it is made of, and tells on standard error how many functions are newer than the
# profile: they are compiled as without one. With PROFILE=no, for a machine without llvm-profdata, it prints the path of the plain
# file, and says so.
#
# usage: profiled.sh erd|liberd.a
set -eu
cd "$(dirname "$0")/.."
name=${1?erd or liberd.a}
case $name in
erd) crate=erd plain=erd ;;
liberd.a) crate=erd_c plain=out/c/liberd.a ;;
*) echo "$0: $name is neither erd nor liberd.a" >&2; exit 1 ;;
esac
made=out/profiled/$name
warnings=out/profiled/$name.warnings

if [ "${PROFILE:-}" = no ]; then
    echo "$plain is handed on as it is: PROFILE=no, so it is compiled without a profile" >&2
    echo "$plain"
    exit
fi
mkdir -p out/profiled
flags=$(packaging/profile/flags.sh)
# a second call waits for the first one
exec 9> "$made.lock"
flock 9
if ! sha256sum --status --check "$made.of" 2> /dev/null; then
    packaging/compile.sh "$crate" "$flags" -Wno-error=backend-plugin -mllvm -pgo-warn-missing-function > "$made.log" 2>&1 \
        || { tail -n 20 "$made.log" >&2; exit 1; }
    cp "crates/$crate/out/flagged/warnings" "$warnings"
    case $name in
    erd) cp crates/erd/out/flagged/erd "$made" ;;
    liberd.a) packaging/static_library.sh crates/erd_c/out/flagged/liberd_c.a "$made" ;;
    esac
    sha256sum "$made" "$plain" packaging/profile/erd.proftext > "$made.of"
fi
echo "$made: $(grep -c '^warning: .*\[-Wbackend-plugin\]$' "$warnings") functions are newer than the profile;" \
    'packaging/profile/make.sh makes it anew' >&2
echo "$made"
