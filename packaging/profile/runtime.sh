#!/usr/bin/env bash
# Prints the files that an instrumented program links, one a line: the object that writes the counts when the program ends, which it
# puts into the folder $1, and the runtime of clang's profiles. They are of the major version of the kit's clang.
set -eu
folder=${1?a folder}
clang=$(dirname "$(rt doc)")/toolchain/bin/clang
version=$("$clang" -dumpversion)
major=${version%%.*}
runtime=/usr/lib/llvm-$major/lib/clang/$major/lib/linux/libclang_rt.profile-$(uname -m).a
[ -e "$runtime" ] || { echo "$0: there is no $runtime: install the package libclang-rt-$major-dev" >&2; exit 1; }
ar x --output "$folder" "$runtime" InstrProfilingRuntime.cpp.o
printf '%s\n' "$folder/InstrProfilingRuntime.cpp.o" "$runtime"
