# For the scripts of this folder, which run at the top of the repository: the kit's tools of LLVM, and where things stand.
. packaging/version.sh
kit=$(dirname "$(rt doc)")
made=out/portable
parts=$made/parts
mkdir -p "$parts"

# llvm NAME WORD ..: runs a tool of LLVM. The kit has all of them in one file, which acts by the name under which it is called
llvm() {
    (exec -a "$1" "$kit/toolchain/bin/clang" "${@:2}")
}

# needed PACKAGE COMMAND: stops where the command is missing, and names the Debian package that has it
needed() {
    command -v "$2" > /dev/null || { echo "$0: there is no $2: install the package $1" >&2; exit 1; }
}

# needed_file PACKAGE FILE: the same for a file
needed_file() {
    [ -e "$2" ] || { echo "$0: there is no $2: install the package $1" >&2; exit 1; }
}

# the public calls, one word each
exports() {
    grep -o '^[a-z_]*' packaging/portable/exports.txt
}

# The headers that a compiler brings itself, such as stddef.h: the kit's clang has none.
headers=(-isystem "$(cc -print-file-name=include)")

# without_machine FILE MODULE: the text of a module, without the names of machine, processor and file. The name that the kit's
# compiler gives each module of proved code stays: the profile knows a function by it too
without_machine() {
    sed -E '/^target (triple|datalayout) = /d; /^; ModuleID = /d; /^source_filename = "rattle"$/! { /^source_filename = /d }
        s/ "(target-cpu|target-features|tune-cpu|probe-stack|stack-probe-size|frame-pointer)"(="[^"]*")?//g
        s/^(attributes #[0-9]+ = \{) *\}/\1 "machine"="any" }/' "$1" > "$2"
}

# is_module_of CRATE: whether the module that packaging/compile.sh has kept is that of the crate as it stands compiled
is_module_of() {
    [ -e "crates/$1/out/module.bc" ] && sha256sum --status -c "crates/$1/out/module.bc.of" 2> /dev/null
}

# proved_module CRATE TEXT: the proved code of a crate as such a module, which is compiled first where it has not been
proved_module() {
    is_module_of "$1" || packaging/compile.sh "$1" > out/module.log 2>&1 || { tail -n 20 out/module.log >&2; exit 1; }
    llvm clang -S -emit-llvm -Xclang -disable-llvm-passes -x ir "crates/$1/out/module.bc" -o "$2.kept"
    without_machine "$2.kept" "$2"
    rm "$2.kept"
}

# from_c FILE MODULE FLAG ..: C as such a module, not optimised yet
from_c() {
    llvm clang --target=x86_64-unknown-linux-gnu -std=c11 -O3 -Xclang -disable-llvm-passes -fPIC -fno-stack-protector \
        -Wall -Wextra -ffile-prefix-map="$PWD=." "${headers[@]}" "${@:3}" -S -emit-llvm "$1" -o "$2.kept"
    without_machine "$2.kept" "$2"
    rm "$2.kept"
}

# proved_for MACHINE PROVED MODULE: proved code for another machine than x86-64. One instruction of x86-64 stands in it by name,
# which picks bytes of a vector by their places, and zero where a place is negative; each machine has one of its own that does this.
proved_for() {
    sed 's/@llvm\.x86\.ssse3\.pshuf\.b\.128/@pick_bytes/; /^declare .* @pick_bytes(/d' "$2" > "$3"
    cat "packaging/portable/pick_bytes/$1.ll" >> "$3"
    if grep -q '@llvm\.x86\.' "$3"; then
        echo "$0: the proved code has instructions of x86-64:" >&2
        grep -o '@llvm\.x86\.[a-z0-9.]*' "$3" | sort -u >&2
        exit 1
    fi
}

# compile MODULE OBJECT FLAG ..: compiles a module by these flags. Where $KEPT_OBJECTS names a folder, as the gate does, which makes the same
# forms in two folders, what clang has made of the same module under this name, by the same profile and flags, is taken from there
compile() {
    local flags=("${@:3}" -Wno-override-module) kept=''
    if [ -n "${KEPT_OBJECTS:-}" ]; then
        mkdir -p "$KEPT_OBJECTS"
        kept=$KEPT_OBJECTS/$({
            printf '%s\n' "$1" "${flags[@]//"$PWD"/.}"
            cat "$1" packaging/profile/erd.proftext
        } | sha256sum | cut -c 1-64)
        [ ! -e "$kept" ] || { cp "$kept" "$2"; return; }
    fi
    llvm clang "${flags[@]}" -x ir -c "$1" -o "$2"
    [ -z "$kept" ] || { cp "$2" "$kept.$$" && mv "$kept.$$" "$kept"; }
}

# resource FILE OBJECT: the resource with the version that a file for Windows has, by its name a program or a library
resource() {
    local type=1
    [[ $1 == *.exe ]] || type=2
    needed binutils-mingw-w64-x86-64 x86_64-w64-mingw32-windres
    sed "s/@VERSION@/$version/; s/@NUMBERS@/${version//./,},0/; s/@FILE@/$1/; s/@TYPE@/$type/" packaging/portable/erd.rc > "$2.rc"
    x86_64-w64-mingw32-windres "$2.rc" "$2"
}

# take_profile: leaves in $profile the flags of clang by which proved code is compiled with the profile. clang would warn of each
# function that the profile does not have; packaging/profiled.sh counts them.
take_profile() {
    local flags
    flags=$(packaging/profile/flags.sh)
    profile=()
    [ -z "$flags" ] || profile=("$flags" -Wno-backend-plugin)
}
