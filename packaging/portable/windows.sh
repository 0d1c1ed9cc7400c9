#!/usr/bin/env bash
# Makes the library for Windows on x86-64: out/portable/windows-x86_64, a folder with erd.dll, erd.lib, which the linkers of
# Visual Studio and of mingw take, and erd.h. The DLL needs what every Windows has: kernel32.dll and msvcrt.dll. Needs Debian's
# package gcc-mingw-w64-x86-64-posix.
set -eu
cd "$(dirname "$0")/../.."
. packaging/portable/common.sh
. packaging/portable/shared.sh
packaging/portable/module.sh
linker=x86_64-w64-mingw32-gcc
needed gcc-mingw-w64-x86-64-posix "$linker"
folder=$made/windows-x86_64

objects=()
take_profile
for part in proved calls heap; do
    compile "$parts/$part.ll" "$parts/$part.windows.o" --target=x86_64-w64-windows-gnu -march=x86-64-v2 -O3 "${profile[@]}"
    objects+=("$parts/$part.windows.o")
done
resource erd.dll "$parts/rc.windows.o"

rm -rf "$folder"
mkdir -p "$folder"
definitions "$parts/erd.def"
"$linker" -shared -s -static-libgcc -Wl,--no-insert-timestamp -Wl,--dynamicbase -Wl,--nxcompat -Wl,--high-entropy-va \
    "${objects[@]}" "$parts/rc.windows.o" "$parts/erd.def" -o "$folder/erd.dll"
llvm llvm-dlltool -m i386:x86-64 -d "$parts/erd.def" -D erd.dll -l "$folder/erd.lib"
cp bindings/c/erd.h "$folder"
