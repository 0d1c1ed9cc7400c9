#!/usr/bin/env bash
# Makes the program for another machine than x86-64 Linux, aarch64 or windows: out/portable/program-MACHINE/erd or erd.exe. It is
# the module of LLVM of the proved program, as the kit's compiler lowered it for x86-64 Linux, compiled for that machine with the
# profile of a release, over bindings/c/main.c. `make erd` comes first. It needs Debian's packages gcc-aarch64-linux-gnu and
# libc6-dev-arm64-cross, or gcc-mingw-w64-x86-64-posix.
set -eu
cd "$(dirname "$0")/../.."
. packaging/portable/common.sh
machine=${1?the machine, aarch64 or windows}
case $machine in
aarch64)
    compiler=aarch64-linux-gnu-gcc package=gcc-aarch64-linux-gnu program=erd
    target=(--target=aarch64-linux-gnu -fPIE)
    linked=(-pie -Wl,-z,relro,-z,now,-z,noexecstack -Wl,--build-id=sha1)
    ;;
windows)
    compiler=x86_64-w64-mingw32-gcc package=gcc-mingw-w64-x86-64-posix program=erd.exe
    target=(--target=x86_64-w64-windows-gnu -march=x86-64-v2)
    linked=(-municode -static-libgcc -Wl,--no-insert-timestamp -Wl,--dynamicbase -Wl,--nxcompat -Wl,--high-entropy-va
        -Wl,--stack,8388608)
    ;;
*) echo "$0: $machine is no machine of ours" >&2; exit 1 ;;
esac
needed "$package" "$compiler"
folder=$made/program-$machine
prefix=$parts/program_$machine
[ "${PROFILE:-}" != no ] || prefix+=_plain

# named: the module on standard input, with names for C. On x86-64 Linux the program begins with a look for a processor that is
# too old. This falls away, and what it calls gets a name that C can call. The calls of Linux have other names on Windows.
named() {
    sed 's/^define i32 @main() /define internal i32 @main_for_x86() /
        s/^define internal noundef i32 @"erd::main+start"()/define noundef i32 @erd_start()/; s/@"erd::main+start"/@erd_start/' |
        case $machine in
        windows) sed -E 's/@(open|read|write|close)\(/@system_\1(/' ;;
        *) cat ;;
        esac
}

# The proved code takes long, so what is compiled of it is kept. It is made anew where what it is made of is newer.
if ! is_module_of erd || [ ! -e "${prefix}_proved.o" ] || [ -n "$(find crates/erd/out/module.bc packaging/profile/erd.proftext \
    packaging/portable/{program.sh,common.sh,heap.c} -newer "${prefix}_proved.o")" ]; then
    proved_module erd "${prefix}_kept.ll"
    named < "${prefix}_kept.ll" > "${prefix}_named.ll"
    grep -q '^define noundef i32 @erd_start()' "${prefix}_named.ll" || { echo "$0: the program begins elsewhere" >&2; exit 1; }
    case $machine in
    aarch64) proved_for aarch64 "${prefix}_named.ll" "${prefix}_proved.ll" ;;
    windows) mv "${prefix}_named.ll" "${prefix}_proved.ll" ;;
    esac
    from_c packaging/portable/heap.c "${prefix}_heap.ll"
    take_profile
    for part in heap proved; do
        compile "${prefix}_$part.ll" "${prefix}_$part.o" "${target[@]}" -O3 "${profile[@]}"
    done
fi
objects=("${prefix}_proved.o" "${prefix}_heap.o" "${prefix}_main.o")
"$compiler" -std=c11 -O2 -Wall -Wextra -ffile-prefix-map="$PWD=." -c bindings/c/main.c -o "${prefix}_main.o"
if [ "$machine" = windows ]; then
    resource erd.exe "${prefix}_rc.o"
    objects+=("${prefix}_rc.o")
fi
rm -rf "$folder"
mkdir -p "$folder"
"$compiler" -s "${objects[@]}" "${linked[@]}" -o "$folder/$program"
