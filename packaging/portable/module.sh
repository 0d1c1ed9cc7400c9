#!/usr/bin/env bash
# Makes the library as LLVM modules in text that name no machine: out/portable/parts/proved.ll, the proved code as the kit's
# compiler lowered it for x86-64, calls.ll, the C side, and heap.ll. Clang compiles them for any machine of 64 bits that has the
# low byte first. C is lowered for x86-64 too, since what proved code and C return to one another in pairs must be lowered
# alike. Made anew only where something has changed. `make library` comes first.
set -eu
cd "$(dirname "$0")/../.."
. packaging/portable/common.sh

[ -e out/c/liberd.a ] || packaging/library.sh
is_module_of erd_c && [ -e "$parts/heap.ll" ] && [ -z "$(find crates/erd_c/out/module.bc bindings/c/erd.[ch] \
    packaging/portable/{module,common}.sh packaging/portable/heap.c -newer "$parts/heap.ll")" ] && exit
proved_module erd_c "$parts/proved.ll"
from_c bindings/c/erd.c "$parts/calls.ll"
from_c packaging/portable/heap.c "$parts/heap.ll"
