#!/usr/bin/env bash
# Tries the scripts of packaging/ that compile, in a folder of their own, with a kit and compilers that only note how they were called and
# hand on what they are given: what is made anew, what stays as it is, of what each file is made, and what is said where that fails. One
# line a case.
set -u
. "$(dirname "$0")/../shared/start.sh" || exit 1
. tests/shared/commands.sh
. tests/shared/fakes.sh
unset KEPT_OBJECTS
mkdir -p "$tree/tests/shared" "$tree/bindings"
cp tests/shared/counting.sh "$tree/tests/shared"
cp -r bindings/c "$tree/bindings"

# What a compiler is given becomes what it makes.
handed_on=('while [ $# -gt 0 ]; do
    case $1 in -o | -l) to=$2; shift ;; -dumpversion) echo 99.1.2; exit ;; -*) ;; *) [ ! -f "$1" ] || from=$1 ;; esac; shift
done' 'cat "$from" > "$to"')
fake "$KIT/toolchain/bin/clang" "${handed_on[@]}"
fake "$tools/cc" '[[ $* != -print-file-name=include ]] || { echo /usr/include; exit; }' "${handed_on[@]}"
fake "$tools/aarch64-linux-gnu-gcc" "${handed_on[@]}"

# The crates, and their sources.
cat > "$tree/crates.txt" << 'END'
# Each crate with what it stands on: erd: nothing
low:
mid: low json
erd: clap mid  # the program: it
erd_c staticlib: mid
END
for crate in low mid erd erd_c; do
    mkdir -p "$tree/crates/$crate/src"
    echo "$crate one" > "$tree/crates/$crate/src/lib.rt"
done
mv "$tree/crates/erd/src/lib.rt" "$tree/crates/erd/src/main.rt"

# The words for the kit's compiler.
fresh packaging/words.sh erd
expect_text 'the words for the program' 0 "$(sed "s|KIT|$KIT|; s|TREE|$tree|" << 'END'
src/main.rt
--crate-name
erd
--extern
std=KIT/rlibs/std.rlib
-L
dependency=KIT/rlibs
--extern
clap=KIT/rlibs/clap.rlib
--extern
mid=TREE/crates/mid/out/rlib/mid.rlib
-L
dependency=TREE/crates/low/out/rlib
-L
dependency=TREE/crates/mid/out/rlib
--antt-project
KIT/rattle/logic/antt-project.json
--links
erd=
END
)"
fresh packaging/words.sh erd_c
equal 'those for the library for C' "$(sed "s|$KIT|KIT|; s|$tree/crates|CRATES|" "$work/out" | paste -sd ' ')" "src/lib.rt --crate-name erd_c \
--extern std=KIT/rlibs/std.rlib -L dependency=KIT/rlibs --extern mid=CRATES/mid/out/rlib/mid.rlib -L dependency=CRATES/low/out/rlib \
-L dependency=CRATES/mid/out/rlib --antt-project KIT/rattle/logic/antt-project.json --links erd_c= --crate-type staticlib"

# One crate. The compiler takes a verdict of the same source alone, and hands its module to clang.
fake "$KIT/bin/rattle" 'what=$1; source=$2; while [ $# -gt 0 ]; do
    case $1 in -o) to=$2 ;; --toolchain) toolchain=$2 ;; --crate-checked) checked=$2 ;; esac; shift
done
! grep -q wrong "$source" || { echo "error: a goal is open"; exit 1; }
sleep "${SLOW:-0}"
case $what in
check) mkdir -p "$to" && cp "$source" "$to/of" ;;
build)
    [ -z "${checked:-}" ] || cmp -s "$source" "$checked/of" || { echo "another crate"; exit 1; }
    if [ -n "${toolchain:-}" ]; then cp "$source" "$TMPDIR/it.bc" && "$toolchain/bin/clang" -c "$TMPDIR/it.bc" -o "$to"; else cp "$source" "$to"; fi ;;
esac'
fake "$KIT/bin/rattle-link" 'for word; do
    [ "${before:-}" != -o ] || to=$word
    case $word in *.o) from=$word ;; esac
    before=$word
done
echo "linked $(cat "$from")" > "$to"'
fake "$KIT/toolchain/bin/clang" '[[ " $* " != *" -fwarns "* ]] || echo "warning: no counts [-Wbackend-plugin]" >&2' \
    '[[ " $* " != *" -fbad "* ]] || { echo "error: no such flag" >&2; exit 1; }' "${handed_on[@]}"
export TMPDIR=$work

# compiled CRATE FLAG ..: compiles it; notes tells which of the kit's commands were asked
compiled() {
    fresh packaging/compile.sh "$@"
    sed -i 's/ src.*//; s/ --target.*//; s/^clang.*it\.bc -o \S*/clang/; /^rt doc/d' "$asked"
}
compiled erd
expect 'the program' 0
notes 'it is checked, built and linked' 'rattle check;rattle build;clang;rattle-link'
equal 'what clang was given is kept' "$(cat "$tree/crates/erd/out/module.bc")" 'erd one'
equal 'the program is linked of it' "$(cat "$tree/crates/erd/out/erd")" 'linked erd one'
equal 'whose module it is' "$(cat "$tree/crates/erd/out/module.bc.of")" "$(cd "$tree" && sha256sum crates/erd/out/erd)"
compiled erd
notes 'the verdict serves again' 'rattle build;clang;rattle-link'
echo 'erd two' > "$tree/crates/erd/src/main.rt"
compiled erd
notes 'but not for another program' 'rattle build;rattle check;rattle build;clang;rattle-link'
equal 'which is what is made' "$(cat "$tree/crates/erd/out/erd")" 'linked erd two'
compiled erd -fone -fwarns
equal 'with flags it goes elsewhere' "$(cat "$tree/crates/erd/out/flagged/module.bc") $(cat "$tree/crates/erd/out/flagged/warnings")" \
    'erd two warning: no counts [-Wbackend-plugin]'
equal 'and has its own sum' "$(cat "$tree/crates/erd/out/flagged/module.bc.of")" "$(cd "$tree" && sha256sum crates/erd/out/flagged/erd)"
fresh packaging/compile.sh erd -fone -ftwo
equal 'clang gets the flags' "$(grep -o 'clang-of-the-kit.*' "$asked" | sed 's/.* -o //')" 'out/flagged/erd.o -fone -ftwo'
compiled erd -fbad
expect 'clang refuses a flag' 1
tells 'what it says is told' 'error: no such flag'
echo wrong > "$tree/crates/erd/src/main.rt"
compiled erd
expect 'a program that is not proved' 1
notes 'it is not built' 'rattle build;rattle check'
equal 'what is said of it' "$(cat "$work/out")" 'error: a goal is open'
compiled erd
notes 'a verdict of before does not serve it' 'rattle check'
echo 'erd two' > "$tree/crates/erd/src/main.rt"
compiled erd
# at_once COMMAND ..: runs it twice beside each other
at_once() {
    : > "$asked"
    for try in 1 2; do
        env -C "$tree" -u PROFILE PATH="$tools:$PATH" SLOW=0.3 "$@" > "$work/out.$try" 2>&1 &
    done
    wait
}
echo 'erd three' > "$tree/crates/erd/src/main.rt"
at_once packaging/compile.sh erd
equal 'of two calls at once the second takes the verdict of the first' "$(grep -c '^rattle check' "$asked")" 1
echo 'erd two' > "$tree/crates/erd/src/main.rt"
compiled erd
compiled erd_c
notes 'the library for C is linked with nothing' 'rattle check;rattle build;clang'
equal 'its code' "$(cat "$tree/crates/erd_c/out/liberd_c.a")" 'erd_c one'
compiled mid
expect 'another library' 0
notes 'it is built at once' 'rattle build'
equal 'where it is' "$(cat "$tree/crates/mid/out/rlib/mid.rlib")" 'mid one'

# The C library, of crates that are proved or of those that `rt ci` has left.
fake "$tools/rt" '[ "$1" != doc ] || { echo "$KIT/page.html"; exit; }; seq 30; exit "${ENDED:-0}"'
fake "$tree/packaging/static_library.sh" '[ $# -eq 0 ] || cp "$1" "$2"'
cp "$tree/packaging/compile.sh" "$work/compile.sh"
fake "$tree/packaging/compile.sh" 'seq 40; [ "$1" != broken ] && exit "${ENDED:-0}"'
fresh packaging/library.sh
notes 'the C library is proved where nothing is' 'rt lib;static_library.sh '
mkdir -p "$tree/crates/erd_canon/out/rlib/erd_canon.rlib"
fresh packaging/library.sh
notes 'over what `rt ci` has left it is compiled' 'compile.sh erd_c;static_library.sh '
fresh env ENDED=1 packaging/library.sh
expect 'one that is not compiled' 1
tells 'its last words' "$(seq 21 40)"
notes 'it is no library then' 'compile.sh erd_c'
touch "$tree/crates/erd_canon/out/rlib/stamp"
fresh packaging/library.sh
notes 'where `rt` has proved it, it is proved again' 'rt lib;static_library.sh '
fresh env ENDED=1 packaging/library.sh
expect 'one that is not proved' 1
tells 'the last words of that' "$(seq 11 30)"

# The file of a release, with the profile.
fake "$tree/packaging/profile/flags.sh" 'echo -fprofile'
fake "$tree/packaging/compile.sh" 'sleep "${SLOW:-0}"
mkdir -p "crates/$1/out/flagged"; cd "crates/$1/out/flagged" || exit; echo "$*" | tee erd liberd_c.a; seq 40
printf "%s\n" "warning: one [-Wbackend-plugin]" "warning: two [-Wbackend-plugin]" "warning: three [-Wother]" > warnings; exit "${ENDED:-0}"'
echo plain > "$tree/erd"
mkdir -p "$tree/out/c"
echo plain > "$tree/out/c/liberd.a"
flags='-fprofile -Wno-error=backend-plugin -mllvm -pgo-warn-missing-function'
for row in 'erd erd erd' 'liberd.a erd_c out/c/liberd.a'; do
    read -r name crate plain <<< "$row"
    fresh env -u PROFILE packaging/profiled.sh "$name"
    expect_text "$name with the profile" 0 "out/profiled/$name"
    equal "what $name is" "$(cat "$tree/out/profiled/$name")" "$crate $flags"
    tells "how much of $name has no counts" "out/profiled/$name: 2 functions are newer than the profile; packaging/profile/make.sh makes it anew"
    fresh env -u PROFILE packaging/profiled.sh "$name"
    notes "$name is handed on again" 'flags.sh '
    for other in "$plain" packaging/profile/erd.proftext "out/profiled/$name"; do
        echo more >> "$tree/$other"
        fresh env -u PROFILE packaging/profiled.sh "$name"
        equal "with another $other $name is made anew" "$(grep -c '^compile' "$asked") $(cat "$tree/out/profiled/$name")" "1 $crate $flags"
    done
    fresh env PROFILE=no packaging/profiled.sh "$name"
    expect_text "$name without the profile" 0 "$plain"
    tells "it is said of $name" "$plain is handed on as it is: PROFILE=no, so it is compiled without a profile"
done
echo more >> "$tree/erd"
at_once packaging/profiled.sh erd
equal 'two calls at once make it once' "$(grep -c '^compile' "$asked")" 1
echo more >> "$tree/erd"
fresh env -u PROFILE ENDED=1 packaging/profiled.sh erd
expect 'a file that is not compiled with the profile' 1
tells 'the last words of it' "$(seq 21 40)"
said 'it is not handed on' "$(cat "$work/out")"
cp packaging/profile/flags.sh "$tree/packaging/profile"
cp "$work/compile.sh" "$tree/packaging"

# The tools for the profile are those of the kit's clang.
fresh env -u PROFILE packaging/profile/flags.sh
expect 'no tool for the profile' 1
tells 'what is said' 'packaging/profile/flags.sh: there is no llvm-profdata-99: install the package llvm-99, or say PROFILE=no to compile without a profile'
fresh env PROFILE=no packaging/profile/flags.sh
expect_text 'no profile is asked for' 0 ''
fake "$tools/llvm-profdata-99" '[ "$1" = merge ] && cp "$2" "$4"'
fresh env -u PROFILE packaging/profile/flags.sh
expect_text 'the flag of the profile' 0 "-fprofile-use=$tree/out/profile/erd.profdata"
same_bytes 'what the profile is made of' "$tree/packaging/profile/erd.proftext" "$tree/out/profile/erd.profdata"
fresh packaging/profile/runtime.sh "$work"
expect 'no runtime for counts' 1
equal 'what is said of it' "$(sed 's/.*: //' "$work/err")" 'install the package libclang-rt-99-dev'

# The modules of LLVM without a machine: made anew where anything is newer that they are made of.
cat > "$tree/crates/erd/out/module.bc" << 'END'
; ModuleID = 'it'
source_filename = "rattle"
target datalayout = "e"
target triple = "x86_64-unknown-linux-gnu"
define internal noundef i32 @"erd::main+start"() #0 {
  call i32 @open(ptr %1) @llvm.x86.ssse3.pshuf.b.128(
define i32 @main() #0 {
  call i32 @"erd::main+start"()
attributes #0 = { nounwind "target-cpu"="x86-64" "probe-stack"="inline-asm" }
attributes #1 = { "frame-pointer"="all" }
END
cp "$tree/crates/erd/out/module.bc" "$tree/crates/erd_c/out/module.bc"
bare='source_filename = "rattle"
define internal noundef i32 @"erd::main+start"() #0 {
  call i32 @open(ptr %1) @llvm.x86.ssse3.pshuf.b.128(
define i32 @main() #0 {
  call i32 @"erd::main+start"()
attributes #0 = { nounwind }
attributes #1 = { "machine"="any" }'
# settled: all files are as old
settled() {
    find "$tree" -type f -exec touch -d '2020-01-01' {} +
}
parts=$tree/out/portable/parts
fake "$tree/packaging/library.sh" 'touch out/c/liberd.a'
rm "$tree/out/c/liberd.a"
fresh packaging/portable/module.sh
expect 'the modules' 0
equal 'the C library comes first' "$(grep -m 1 -v '^rt\|^cc' "$asked")" 'library.sh '
equal 'the proved code, without a machine' "$(cat "$parts/proved.ll")" "$bare"
equal 'the C side' "$(cat "$parts/calls.ll" "$parts/heap.ll")" "$(cat "$tree/bindings/c/erd.c" "$tree/packaging/portable/heap.c")"
settled
fresh packaging/portable/module.sh
equal 'they stay' "$(grep -c '^clang' "$asked")" 0
for file in crates/erd_c/out/module.bc bindings/c/erd.c bindings/c/erd.h packaging/portable/{module.sh,common.sh,heap.c}; do
    settled
    touch "$tree/$file"
    fresh packaging/portable/module.sh
    equal "they are made anew: $file" "$(grep -c '^clang' "$asked")" 3
done
fake "$tree/packaging/compile.sh" 'seq 40; echo "another { \"probe-stack\" }" > crates/erd_c/out/module.bc; exit "${ENDED:-0}"'
echo other >> "$tree/crates/erd_c/out/liberd_c.a"
settled
fresh packaging/portable/module.sh
equal 'of other code the module is made first' "$(cat "$parts/proved.ll")" 'another { }'
fresh env ENDED=1 packaging/portable/module.sh
expect 'a module that cannot be made' 1
tells 'the last words of that one' "$(seq 21 40)"

# The program for other machines.
fake "$tools/x86_64-w64-mingw32-gcc" "${handed_on[@]}"
fake "$tools/x86_64-w64-mingw32-windres" 'cp "$1" "$2"'
for row in 'aarch64 open pick_bytes' 'windows system_open llvm.x86.ssse3.pshuf.b.128'; do
    read -r machine open pick <<< "$row"
    fresh env PROFILE=no packaging/portable/program.sh "$machine"
    expect "the program for $machine" 0
    part=$parts/program_${machine}_plain
    equal "it begins where C begins it: $machine" "$(head -n 5 "${part}_proved.ll")" 'source_filename = "rattle"
define noundef i32 @erd_start() #0 {
  call i32 @'"$open"'(ptr %1) @'"$pick"'(
define internal i32 @main_for_x86() #0 {
  call i32 @erd_start()'
    equal "what picks bytes there: $machine" "$(tail -n 1 "${part}_proved.ll")" "$([ "$machine" = windows ] && tail -n 1 "$tree/crates/erd/out/module.bc" |
        sed 's/ "frame-pointer"="all"/ "machine"="any"/' || tail -n 1 packaging/portable/pick_bytes/aarch64.ll)"
    same_bytes "and it has its heap: $machine" "${part}_heap.o" "$tree/packaging/portable/heap.c"
    of=out/portable/parts/program_${machine}_plain
    equal "what is linked: $machine" "$(grep -c "gcc -s ${of}_proved.o ${of}_heap.o ${of}_main.o " "$asked")" 1
    settled
    fresh env PROFILE=no packaging/portable/program.sh "$machine"
    equal "the proved code stays, and the C side is made: $machine" "$(grep -c '^clang' "$asked") $(grep -c 'bindings/c/main.c' "$asked")" '0 1'
    for file in crates/erd/out/module.bc packaging/profile/erd.proftext packaging/portable/{program.sh,common.sh,heap.c}; do
        settled
        touch "$tree/$file"
        fresh env PROFILE=no packaging/portable/program.sh "$machine"
        equal "it is made anew for $machine: $file" "$(grep -c '^clang' "$asked")" 4
    done
done
fresh env -u PROFILE packaging/portable/program.sh aarch64
equal 'with the profile it is another, compiled by it' "$(grep -c -- "^clang.* -fprofile-use=$tree/out/profile/erd.profdata" "$asked")" 2
said 'it has a file of its own' "$([ -s "$parts/program_aarch64_proved.o" ] || ls "$parts")"

# compiled: the program for aarch64 is made of nothing but the objects that are kept, and the first lines of what clang compiled are noted
compiled() {
    rm -rf "$parts"
    fresh env PROFILE=no "KEPT_OBJECTS=$work/objects" packaging/portable/program.sh aarch64
    grep -o '^clang .* -c [^ ]*' "$asked" | sed 's|.*/program_aarch64_plain_||' | paste -sd ' '
}
equal 'for a folder without objects all is compiled' "$(compiled)" 'heap.ll proved.ll'
cp "$parts/program_aarch64_plain_proved.o" "$work/first.o"
equal 'of the same modules nothing is' "$(compiled)." .
same_bytes 'what is taken is what was made' "$parts/program_aarch64_plain_proved.o" "$work/first.o"
cp "$tree/crates/erd/out/module.bc" "$work/module.bc"
echo 'attributes #2 = { other }' >> "$tree/crates/erd/out/module.bc"
equal 'another module is' "$(compiled)" proved.ll
cp "$work/module.bc" "$tree/crates/erd/out/module.bc"
cp "$tree/packaging/profile/erd.proftext" "$work/erd.proftext"
echo >> "$tree/packaging/profile/erd.proftext"
equal 'and all for another profile' "$(compiled)" 'heap.ll proved.ll'
cp "$work/erd.proftext" "$tree/packaging/profile/erd.proftext"
sed -i 's/ -fPIE)/ -fPIE -g)/' "$tree/packaging/portable/program.sh"
equal 'and by other flags' "$(compiled)" 'heap.ll proved.ll'
cp packaging/portable/program.sh "$tree/packaging/portable"
sed -i 's|^prefix=$parts/program_|prefix=$parts/named_|' "$tree/packaging/portable/program.sh"
compiled > "$work/named"
equal 'and under another name' "$(grep -c '^clang .* -c .*/named_aarch64_plain_' "$asked")" 2
cp packaging/portable/program.sh "$tree/packaging/portable"

sed -i 's/^\(  call.*\)128(/\1128( @llvm.x86.other.b(/' "$tree/crates/erd/out/module.bc"
fresh env PROFILE=no packaging/portable/program.sh aarch64
expect 'an instruction of x86-64 that aarch64 has not' 1
tells 'which it is' $'packaging/portable/program.sh: the proved code has instructions of x86-64:\n@llvm.x86.other.b'
echo nothing > "$tree/crates/erd/out/module.bc"
fresh env PROFILE=no packaging/portable/program.sh aarch64
expect 'a program that begins elsewhere' 1
tells 'it is told so' 'packaging/portable/program.sh: the program begins elsewhere'

# The library for this machine is that of a release.
fake "$tree/packaging/portable/module.sh"
fake "$tree/packaging/profiled.sh" 'echo "the code of a release" > out/archive; echo out/archive'
fresh packaging/portable/linux.sh x86_64
expect 'the library for this machine' 0
equal 'its code' "$(cat "$tree/out/portable/linux-x86_64/liberd.a")" 'the code of a release'
equal 'how it comes' "$(grep -v '^rt\|-print-file-name' "$asked" | cut -d ' ' -f 1,2 | paste -sd ';')" 'module.sh ;profiled.sh liberd.a;cc -shared'

# For other machines the proved code is compiled by the profile, and the library is of all parts.
fake "$KIT/toolchain/bin/clang" '[ "$1" != rcsD ] || { cat "${@:3}" > "$2"; exit; }' "${handed_on[@]}"
sed -i 's/ @llvm.x86.other.b(/(/' "$tree/crates/erd/out/module.bc"
for part in proved calls heap; do
    echo "$part" > "$parts/$part.ll"
done
echo native > "$tree/out/c/liberd.a"
fresh env -u PROFILE packaging/portable/linux.sh aarch64
expect 'the library for aarch64' 0
equal 'that of this machine stays' "$(cat "$tree/out/c/liberd.a")" native
equal 'its parts' "$(cat "$tree/out/portable/linux-aarch64/liberd.a")" \
    "$(cat "$parts/proved.ll" packaging/portable/pick_bytes/aarch64.ll; echo calls; echo heap)"
equal 'each is compiled by the profile' "$(grep -c -- "^clang --target=aarch64-linux-gnu -O3 -fPIC -fprofile-use=$tree/out/profile/erd.profdata" "$asked")" 3
equal 'its files' "$(cd "$tree/out/portable/linux-aarch64" && LC_ALL=C ls -R | paste -sd ' ')" \
    ".: erd.h liberd.a liberd.so liberd.so.0 liberd.so.$(cat VERSION) pkgconfig  ./pkgconfig: erd.pc"
fresh env -u PROFILE packaging/portable/windows.sh
expect 'the library for Windows' 0
equal 'its parts are compiled by the profile' "$(grep -- "-fprofile-use=$tree/out/profile/erd.profdata" "$asked" |
    grep -o ' out/portable/parts/[a-z]*\.ll' | paste -sd ' ')" \
    ' out/portable/parts/proved.ll  out/portable/parts/calls.ll  out/portable/parts/heap.ll'
equal 'what is linked' "$(grep -o 'gcc -shared .*' "$asked" | grep -o 'parts/\S*' | paste -sd ' ')" \
    'parts/proved.windows.o parts/calls.windows.o parts/heap.windows.o parts/rc.windows.o parts/erd.def'
equal 'the DLL that erd.lib names' "$(grep -o -- '-d .*erd.lib' "$asked")" "-d out/portable/parts/erd.def -D erd.dll -l out/portable/windows-x86_64/erd.lib"
equal 'what it exports' "$(cat "$parts/erd.def")" "LIBRARY erd.dll
EXPORTS
$(sed 's/^/    /' packaging/portable/exports.txt)"
numbers=$(tr . , < VERSION),0
for row in 'erd.dll 2' 'erd.exe 1'; do
    read -r file type <<< "$row"
    # shellcheck disable=SC2016
    fresh bash -c '. packaging/portable/common.sh; resource "$1" out/rc' form.sh "$file"
    equal "what Windows tells of $file" "$(grep -o '@.*@\|^F.*ION .*\|^P.*ION .*\|^FILETYPE.*\|"\(File\|Orig\|Product\|Trans\).*' "$tree/out/rc" |
        paste -sd ';')" \
        "FILEVERSION $numbers;PRODUCTVERSION $numbers;FILETYPE $type;\"FileDescription\", \"erd: check, canonical form and comparison of ballot definitions\";\
\"FileVersion\", \"$(cat VERSION)\";\"OriginalFilename\", \"$file\";\"ProductName\", \"erd\";\
\"ProductVersion\", \"$(cat VERSION)\";\"Translation\", 0x409, 1200"
done

fake "$tools/rt" 'echo "$KIT/page.html"'

# What is missing is named with its package.
for row in 'needed clever nosuch' 'needed_file clever /no/such'; do
    read -r function package name <<< "$row"
    # shellcheck disable=SC2016
    fresh bash -c '. packaging/portable/common.sh; "$@"; echo on' form.sh "$function" "$package" "$name"
    expect_text "$function: what is missing" 1 ''
    tells "$function: it is named" "form.sh: there is no $name: install the package clever"
done
mkdir "$work/few"
for name in bash basename dirname cat sed date mkdir; do
    ln -s "$(command -v $name)" "$work/few"
done
for row in 'wasm-opt binaryen' 'wasm2wat wabt'; do
    run env -C "$tree" PATH="$tools:$work/few" packaging/portable/wasm.sh
    tells "a tool of erd.wasm that is missing: ${row% *}" "packaging/portable/wasm.sh: there is no ${row% *}: install the package ${row#* }"
    fake "$work/few/${row% *}"
done
fake "$tools/npm" 'touch "$8/other.tgz"; echo other.tgz'
mkdir -p "$tree/bindings/js"
cp LICENSE-* THIRD-PARTY-NOTICES "$tree"
touch "$tree/out/portable/erd.wasm"
fresh packaging/portable/javascript.sh
expect 'npm makes another file' 1
tells 'which' "packaging/portable/javascript.sh: npm made other.tgz in place of erd-$(cat VERSION).tgz"

counts
