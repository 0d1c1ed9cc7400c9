#!/usr/bin/env bash
# Makes out/portable/erd.wasm: the library as one WebAssembly module with no imports and a memory of 32 bits, which any engine since
# March 2023 runs, when the last of them had vectors. The proved code is compiled with the profile. Needs Debian's packages binaryen,
# wabt and libclang-rt-22-dev-wasm64.
set -eu
cd "$(dirname "$0")/../.."
. packaging/portable/common.sh
builtins=/usr/lib/llvm-22/lib/clang/22/lib/wasi/libclang_rt.builtins-wasm64.a
needed binaryen wasm-opt
needed wabt wasm2wat
needed_file libclang-rt-22-dev-wasm64 "$builtins"
packaging/portable/module.sh

target=(--target=wasm64-unknown-unknown -mcpu=mvp -mmutable-globals -msign-ext -mnontrapping-fptoint -msimd128 -O3
    -ffunction-sections -fdata-sections)
plain=(-std=c11 -ffreestanding -fno-builtin -Wall -Wextra -ffile-prefix-map="$PWD=." "${headers[@]}")

# compiled NAME WORD ..: one more object, of C
compiled() {
    objects+=("$parts/$1.wasm.o")
    llvm clang "${target[@]}" "${@:2}" -c -o "$parts/$1.wasm.o"
}

# The calls of 64 bits have `wide_` before their names, since those of 32 bits have the names.
mapfile -t names < <(exports)
wide=()
for name in "${names[@]}"; do
    wide+=("-D$name=wide_$name")
done
from_c bindings/c/erd.c "$parts/wide.ll" "${wide[@]}"
# What only these calls need is made small, since the page must have less than a megabyte.
python3 packaging/portable/wasm/small.py erd_tell_command_line erd_tell_prepared erd_tell_ballots erd_tell_ballot \
    erd_tell_ballot_differences erd_tell_ballots_beside erd_tell_differences_values erd_tell_words < "$parts/proved.ll" > "$parts/small.ll"
proved_for wasm "$parts/small.ll" "$parts/proved_wasm.ll"
take_profile
compile "$parts/proved_wasm.ll" "$parts/proved_wasm.wasm.o" "${target[@]}" "${profile[@]}"
for part in wide heap; do
    compile "$parts/$part.ll" "$parts/$part.wasm.o" "${target[@]}"
done
objects=("$parts"/{proved_wasm,wide,heap}.wasm.o)
compiled calls "${plain[@]}" "${wide[@]}" packaging/portable/wasm/calls.c
compiled memory "${plain[@]}" -mbulk-memory packaging/portable/wasm/memory.c
compiled malloc "${plain[@]}" -mbulk-memory -w packaging/portable/wasm/malloc.c

# The stack comes first, so that what would grow out of it is stopped, and overwrites nothing.
llvm wasm-ld -mwasm64 --no-entry --gc-sections --strip-all --stack-first -z stack-size=4194304 \
    "${names[@]/#/--export=}" --export=erd_malloc "${objects[@]}" "$builtins" -o "$parts/wide.wasm"

# To 32 bits: wasm-opt knows plain loads and stores of vectors only, and no compiler of LLVM does this.
wasm2wat --enable-memory64 "$parts/wide.wasm" | python3 packaging/portable/wasm/plain_loads.py > "$parts/plain.wat"
wat2wasm --enable-memory64 "$parts/plain.wat" -o "$parts/plain.wasm"
wasm-opt --enable-memory64 --enable-simd --enable-bulk-memory --enable-sign-ext --enable-nontrapping-float-to-int \
    --enable-mutable-globals --memory64-lowering -O3 "$parts/plain.wasm" -o "$made/erd.wasm"
