#!/usr/bin/env bash
# Makes the library for Linux on a processor, x86_64 or aarch64: out/portable/linux-PROCESSOR, a folder with liberd.so and its
# real name, liberd.a, erd.h and erd.pc. x86_64 has the code of out/c/liberd.a, compiled with the profile; aarch64 has the same LLVM
# module compiled for it, and needs Debian's packages gcc-aarch64-linux-gnu and libc6-dev-arm64-cross.
set -eu
cd "$(dirname "$0")/../.."
. packaging/portable/common.sh
. packaging/portable/shared.sh
processor=${1?the processor, x86_64 or aarch64}
packaging/portable/module.sh
folder=$made/linux-$processor

case $processor in
x86_64)
    linker=${CC:-cc}
    archive=$(packaging/profiled.sh liberd.a)
    ;;
aarch64)
    linker=aarch64-linux-gnu-gcc
    needed gcc-aarch64-linux-gnu "$linker"
    archive=$parts/aarch64.a
    objects=()
    proved_for aarch64 "$parts/proved.ll" "$parts/proved_aarch64.ll"
    take_profile
    for part in proved_aarch64 calls heap; do
        compile "$parts/$part.ll" "$parts/$part.aarch64.o" --target=aarch64-linux-gnu -O3 -fPIC "${profile[@]}"
        objects+=("$parts/$part.aarch64.o")
    done
    rm -f "$archive"
    llvm llvm-ar rcsD "$archive" "${objects[@]}"
    ;;
*)
    echo "$0: $processor is no processor of ours" >&2
    exit 1
    ;;
esac

rm -rf "$folder"
mkdir -p "$folder/pkgconfig"
version_script "$parts/exports.map"
"$linker" -shared -s -Wl,-soname,"$soname" -Wl,--version-script,"$parts/exports.map" -Wl,-z,relro,-z,now,-z,defs,-z,noexecstack \
    -Wl,--gc-sections -Wl,--build-id=sha1 -Wl,--whole-archive "$archive" -Wl,--no-whole-archive -o "$folder/liberd.so.$version"
ln -s "liberd.so.$version" "$folder/$soname"
ln -s "$soname" "$folder/liberd.so"
cp "$archive" "$folder/liberd.a"
cp bindings/c/erd.h "$folder"
sed "s/@VERSION@/$version/" packaging/portable/erd.pc > "$folder/pkgconfig/erd.pc"
