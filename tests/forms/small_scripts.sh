#!/usr/bin/env bash
# Tries the scripts of packaging/ that compile nothing, in a folder of their own, beside tools that only note how they were called: what is
# asked of the tools, what is made, and what is said where something is missing or wrong. One line a case.
set -u
. "$(dirname "$0")/../shared/start.sh" || exit 1
. tests/shared/commands.sh
. tests/shared/fakes.sh

# Each tool that is missing is named, with where it comes from; what runs the kit needs Python too.
run env PATH="$work/none" "$BASH" packaging/needed.sh rt cc ar objdump cmp dpkg-deb dpkg-shlibdeps node sha256sum npm
expect 'tools that are missing' 1
for row in 'cc gcc' 'ar binutils' 'objdump binutils' 'cmp diffutils' 'dpkg-deb dpkg' 'dpkg-shlibdeps dpkg-dev' 'node nodejs' \
    'sha256sum coreutils' 'npm npm' 'python3 python3'; do
    equal "the package with ${row% *}" "$(grep -F " no ${row% *}," "$work/err")" "make: there is no ${row% *}, which is in Debian's package ${row#* }"
done
equal 'where the kit comes from' "$(head -n 1 "$work/err")" 'make: there is no rt, which is of the Rattle kit: the README says how to get it'

# What is free, as the system tells it to others.
python3 - "$(bash -c '. packaging/room.sh > /dev/null; echo "$memory $disk"' packaging/room.sh)" > "$work/out" << 'END'
import os, sys
memory, disk = (int(word) for word in sys.argv[1].split())
free = next(int(line.split()[1]) * 1024 for line in open('/proc/meminfo') if line.startswith('MemAvailable')) / 1e6
room = os.statvfs('.')
print('' if abs(memory - free) < free / 4 and abs(disk - room.f_bavail * room.f_frsize / 1e6) < 5000 else f'{memory} and {disk} MB')
END
said 'what room.sh finds free' "$(cat "$work/out")"

# The packages of Debian: `here` is installed, and npm has a command.
printf '%s\n' '# of all' '' '# the one' here gone '' '# the other' npm lost found > "$tree/packaging/debian-packages.txt"
fake "$tools/dpkg-query" '[[ "${@: -1}" = here ]] && echo installed || echo config-files'
fake "$tools/npm"
fake "$tools/sleep"
fake "$tools/id" 'echo "$USER_ID"'
fake "$tools/apt-get" '[[ " $* " != *" install "* ]] || [[ " $* " != *" ${LOST:-none} "* ]] || { echo "E: no ${LOST}"; exit 100; }'
# packages USER [VARIABLE]: runs it as this user
packages() {
    fresh env "USER_ID=$1" "${@:2}" packaging/install_packages.sh
    sed -i '/^dpkg-query/d; /^id/d; s/ -o DPkg::Lock::Timeout=300//; s/ -y --no-install-recommends//' "$asked"
}
packages 1000
expect_text 'without root nothing is installed, and it is said' 0 'packages that are not installed, since that takes root and apt-get: gone lost found'
notes 'nor is anything asked' ''
packages 0
expect_text 'what is missing is installed at once' 0 ''
notes 'what is asked then' 'apt-get update;apt-get install gone lost found'
packages 0 LOST=lost
expect_text 'one that is nowhere' 0 $'packages, try 1 of 3: E: no lost\npackages, try 2 of 3: E: no lost\npackages, try 3 of 3: E: no lost
packages that are not available, for the other: lost'
all='apt-get update;apt-get install gone lost found'
notes 'what is asked then of each group' \
    "$all;sleep 5;$all;sleep 10;$all;sleep 15;apt-get install gone;apt-get install lost found;apt-get install lost;apt-get install found"
echo here > "$tree/packaging/debian-packages.txt"
packages 0
expect_text 'where all are installed' 0 ''
notes 'nothing is asked' ''
rm "$tools"/{npm,sleep,id,apt-get,dpkg-query}

# make try
mkdir -p "$tree/crates/erd"
echo '{}' > "$tree/a b.json"
fake "$tools/rt" 'printf "%s\n" "checked: a" "interpreted: b" "/Status: not pre-election" "run=ended${ENDED- status=1}" "not proved: 3"'
fresh packaging/try.sh 'a b.json'
expect_text 'make try, with no command' 0 $'/Status: not pre-election\nnot proved: 3'
notes 'it asks for the canonical form' 'rt try --data report.json=../../a b.json -- canon report.json'
tells 'what it says of itself' $'This takes about a minute.\nnot proved in this run; the status was 1'
fresh packaging/try.sh "$tree/a b.json" check
notes 'a path from the top, and a command' "rt try --data report.json=$tree/a b.json -- check report.json"
fresh env ENDED= packaging/try.sh 'a b.json'
expect 'a run that did not end' 1
tells 'it is said without a status' $'This takes about a minute.\nnot proved in this run'
fresh packaging/try.sh
equal 'no file' "$(sed 's/.*: //' "$work/err")" 'make try FILE=.. needs a file'

# The version: its day is one all over the world, and there is none without a heading.
for zone in Pacific/Kiritimati Pacific/Pago_Pago; do
    run env -C "$tree" TZ=$zone bash -c '. packaging/version.sh; echo "$version $day $SOURCE_DATE_EPOCH $(umask)"'
    expect_text "the version, its day and its second, in $zone" 0 \
        "$(cat VERSION) $(sed -n "s/^## $(cat VERSION) - //p" CHANGELOG.md) $(date -d "$(sed -n "s/^## $(cat VERSION) - //p" CHANGELOG.md) 00:00 UTC" +%s) 0022"
done
echo 97.6.5 > "$tree/VERSION"
for script in source tarball deb 'library_deb amd64' library_archives python conformance release portable/javascript portable/windows; do
    # shellcheck disable=SC2086
    fresh packaging/${script%% *}.sh ${script#"${script%% *}"}
    expect "a version that the changelog has not: ${script%% *}.sh" 1
    tells "what ${script%% *}.sh says" "CHANGELOG.md has no heading '## 97.6.5 - DATE'"
done
cp VERSION "$tree"

# The source where git is not: what is not made. And the conformance suite, with the licences.
mkdir -p "$work/plain"/{out,crates/low/{src,out},bindings/js/node_modules,tests/__pycache__} "$work/plain/conformance"
cp -r "$tree"/{packaging,VERSION,CHANGELOG.md} LICENSE-MIT LICENSE-APACHE "$work/plain"
touch "$work/plain"/{out/old,crates/low/src/lib.rt,crates/low/out/made,bindings/js/node_modules/other,tests/__pycache__/made,tests/out}
fake "$work/plain/conformance/make" 'mkdir "$1" && touch "$1/run"'
run "$work/plain/packaging/source.sh"
v=$(cat VERSION)
expect_text 'the source without git' 0 "out/erd-$v-source.tar.gz"
equal 'what it has' "$(tar --list --gzip --file "$work/plain/out/erd-$v-source.tar.gz" |
    grep -v '/$\|/packaging/' | paste -sd ' ' | sed "s|erd-$v-source|TOP|g")" \
    'TOP/CHANGELOG.md TOP/LICENSE-APACHE TOP/LICENSE-MIT TOP/VERSION TOP/conformance/make TOP/crates/low/src/lib.rt TOP/tests/out'
run "$work/plain/packaging/conformance.sh"
expect_text 'the conformance suite' 0 "out/erd-$v-conformance.tar.gz"
equal 'its files' "$(tar --list --gzip --file "$work/plain/out/erd-$v-conformance.tar.gz" | paste -sd ' ' | sed "s|erd-$v-conformance|TOP|g")" \
    'TOP/ TOP/LICENSE-APACHE TOP/LICENSE-MIT TOP/run'
equal 'the day and the owner of each' "$(tar --list --verbose --numeric-owner --full-time --utc --gzip --file "$work/plain/out/erd-$v-conformance.tar.gz" |
    awk '{ print $2, $4, $5 }' | sort -u)" "0/0 $(sed -n "s/^## $v - //p" CHANGELOG.md) 00:00:00"

# Words that name nothing of ours.
fake "$tools/rt" 'echo "$KIT/page.html"'
fake "$tree/packaging/portable/module.sh"
for row in 'tarball sparc processor' 'library_deb sparc architecture' 'portable/linux sparc processor' 'portable/program mac machine'; do
    read -r script word kind <<< "$row"
    fresh "packaging/$script.sh" "$word"
    expect "$script.sh $word" 1
    tells "what $script.sh says" "packaging/$script.sh: $word is no $kind of ours"
done
fresh packaging/profiled.sh erd_c
expect 'profiled.sh erd_c' 1
tells 'what it says' 'packaging/profiled.sh: erd_c is neither erd nor liberd.a'

# The page is made where there is none, of erd.wasm, which is made where there is none.
fake "$tree/packaging/portable/wasm.sh" 'echo made; touch out/portable/erd.wasm'
mkdir -p "$tree/out/portable" "$tree/web"
echo 'import sys; print(sys.argv[1:]); open(sys.argv[2], "w").write("page")' > "$tree/web/build.py"
fresh packaging/page.sh
expect_text 'the page is made, and its file is told' 0 out/portable/erd.html
notes 'erd.wasm is made first' 'wasm.sh '
tells 'what was made of it' $'made\n['"'out/portable/erd.wasm', 'out/portable/erd.html']"
fresh packaging/page.sh
expect_text 'the page is there' 0 out/portable/erd.html
tells 'it stays' ''
rm "$tree/out/portable/erd.html"
fresh packaging/page.sh
notes 'so does erd.wasm' ''
equal 'the page is made again' "$(cat "$tree/out/portable/erd.html")" page

# All forms, each by its script; one that is not made is told at the end, and the others are made.
for name in module linux windows wasm program; do
    fake "$tree/packaging/portable/$name.sh" '[[ $1 != "${BROKEN:-none}" ]]'
done
fresh env -u FORMS_ARE_MADE packaging/portable/make.sh
expect 'all forms' 0
notes 'what makes them' 'module.sh ;linux.sh x86_64;linux.sh aarch64;windows.sh ;wasm.sh ;program.sh aarch64;program.sh windows'
equal 'a form, and what it needs' "$(head -n 1 "$work/out")" 'out/portable/linux-x86_64 (needs the C compiler alone)'
fresh env -u FORMS_ARE_MADE BROKEN=aarch64 packaging/portable/make.sh
expect 'two forms that are not made' 1
equal 'they are named' "$(grep -v needs "$work/out" | paste -sd ';')" 'out/portable/linux-aarch64: not made;out/portable/program-aarch64: not made'
notes 'the others are made' 'module.sh ;linux.sh x86_64;linux.sh aarch64;windows.sh ;wasm.sh ;program.sh aarch64;program.sh windows'
mkdir -p "$tree"/out/portable/{linux-aarch64,program-windows}
fresh env FORMS_ARE_MADE=yes packaging/portable/make.sh
notes 'what is there is made no more, where that is said' 'module.sh ;linux.sh x86_64;windows.sh ;program.sh aarch64'
fake "$tree/packaging/portable/module.sh" 'exit 1'
fresh packaging/portable/make.sh
expect 'without the module there is no form' 1
notes 'and none is begun' 'module.sh '

# make erd: each crate after those that it stands on, and what of it is told.
mkdir -p "$tree/tests/shared"
cp tests/shared/counting.sh "$tree/tests/shared"
printf '%s\n' 'low:' 'mid: low json' 'erd: clap mid  # the program' 'erd_c staticlib: mid' > "$tree/crates.txt"
printf '%s\n' '# Seconds.' 'low 600' 'mid 1200' 'erd 4200' 'erd_c 9000' > "$tree/packaging/proof-seconds.txt"
fake "$tree/packaging/room.sh"
fake "$tools/nproc" 'echo "$PROCESSORS"'
fake "$tools/rt" 'crate=$(basename "$PWD"); echo "rt $* in $crate" >> "$ASKED"; { echo "logic=proved functions=3 more"; [ "$crate" != "${OPEN:-}" ] ||
{ seq 20; ${QUIET:-false} || { echo "src/lib.rt:1: error: open"; echo "a goal is not proved"; }; seq 20; exit 1; }; echo "$crate" > "out/$crate"; } >&2'
rm -rf "$tree/crates"
mkdir -p "$tree"/crates/{low,mid,erd}/{out,src}
touch "$tree"/crates/erd/{stdin,src/main.rt}
# built WANTED VARIABLE ..: how long it says that it takes
built() {
    fresh env "PROCESSORS=$2" "${@:3}" packaging/build.sh
    sed -i '/^rt [a-z]*$/d; /^nproc/d' "$asked"
    sed -i 's/ in [0-9]*:[0-9][0-9] min/ in a time/' "$work/out"
    equal "how long it takes: $*" "$(head -n 1 "$work/out" | cut -d . -f 1)" "About $1"
}
built '51 minutes on 4 processors' 4
expect 'make erd' 0
equal 'what is asked of rt' "$(grep -o 'rt .* in .*' "$asked" | paste -sd ';')" 'rt lib in low;rt lib in mid;rt run in erd'
equal 'what is told' "$(tail -n 6 "$work/out")" 'low: crate 1 of 3
low: 3 functions proved in a time
mid: crate 2 of 3
mid: 3 functions proved in a time
erd: crate 3 of 3
erd: 3 functions proved in a time'
equal 'the program is that which was built' "$(cat "$tree/erd")" erd
built '68 minutes on 2 processors' 2 CPU_LEVEL=x86-64
equal 'another processor is asked for' "$(grep -o 'rt run.* in .*' "$asked")" 'rt run --cpu x86-64 in erd'
mkdir "$tree/crates/erd/out/incremental"
built '31 minutes on 1 processors' 1
equal 'what is kept is not counted' "$(head -n 1 "$work/out" | cut -d . -f 2-)" \
    ' The proofs of 1 of 3 crates are kept; of these, what has changed is proved again.'
echo before > "$tree/erd"
built '31 minutes on 1 processors' 1 OPEN=mid
expect 'a crate that is not proved' 1
equal 'it ends there' "$(tail -n 4 "$work/out" | sed 's/after .*/after a time/')" "mid: not built after a time
src/lib.rt:1: error: open
a goal is not proved
The whole log: $tree/out/build.log"
equal 'the log has all of it, and nothing of before' "$(wc -l < "$tree/out/build.log")" 44
equal 'the program of before stays' "$(cat "$tree/erd")" before
built '31 minutes on 1 processors' 1 OPEN=low QUIET=true
equal 'one that does not say why: its last words' "$(sed -n '4,8p' "$work/out" | paste -sd ' ')" '16 17 18 19 20'

# The crates of the program, as the script finds them itself, are those whose seconds stand in the real file.
cp crates.txt "$tree"
cp packaging/proof-seconds.txt "$tree/packaging"
for crate in crates/*/; do
    mkdir -p "$tree/$crate"{out,src}
done
fresh env PROCESSORS=4 packaging/build.sh
expect 'make erd of the real crates' 0
said 'it says nothing of an error' "$(cat "$work/err")"
equal 'each of them has its seconds' "$(sed -n 's/: crate .*//p' "$work/out" | LC_ALL=C sort | paste -sd ' ')" \
    "$(awk '!/^#/ && $2 > 0 { print $1 }' packaging/proof-seconds.txt | LC_ALL=C sort | paste -sd ' ')"
fake "$tools/rt" 'echo "$KIT/page.html"'

# The profile anew: of the program and of the library, on each report, and of nothing else.
fake "$KIT/toolchain/bin/clang" 'echo 99.1.2'
fake "$tree/packaging/compile.sh" 'mkdir -p crates/{$1,erd_c}/out/flagged
install counting crates/$1/out/flagged/$1; echo code > crates/erd_c/out/flagged/liberd_c.a'
fake "$tree/counting" 'exec > /dev/null; touch "${LLVM_PROFILE_FILE%/*}/$(basename "$0").profraw"
for word; do [ ! -e "$word" ] || from=$word; done; exit "$(grep -c "\"VotesAllowed\":1.5\\|\"PartyId\":\"nobody\"" "$from")"'
fake "$tree/packaging/profile/runtime.sh" 'echo runtime.a'
fake "$tree/packaging/static_library.sh" 'cp "$1" "$2"'
fake "$tools/cc" 'while [ $# -gt 0 ]; do [ "$1" != -o ] || install counting "$2"; shift; done'
fake "$tools/llvm-profdata-99" 'while [ $# -gt 0 ]; do [ "$1" != -o ] || echo new > "$2"; shift; done'
mkdir -p "$tree/tests/reports" "$tree/conformance/cases/bases"
printf '%s\n' 'print("{\"PartyId\": \"party-1\", \"VotesAllowed\": 1}")' | tee "$tree/tests/reports/county.py" > "$tree/tests/reports/larger.py"
cp -r examples "$tree"
echo '{}' > "$tree/conformance/cases/bases/one.json"
fresh packaging/profile/make.sh
expect 'the profile is made anew' 0
equal 'what is compiled with counts' "$(grep '^compile\|^static\|^runtime' "$asked" | sed 's| /[^ ]*| HERE|' | paste -sd ';')" \
    'compile.sh erd -fprofile-generate;compile.sh erd_c -fprofile-generate;static_library.sh crates/erd_c/out/flagged/liberd_c.a HERE;runtime.sh HERE'
equal 'what the program and the library are asked' "$(grep '^erd \|^library ' "$asked" |
    cut -d ' ' -f 1,2 | LC_ALL=C sort | uniq -c | sed 's/^ *//' | paste -sd ';')" \
    '11 erd canon;13 erd check;5 erd compare;10 library canon;12 library check-data;5 library compare-data'
equal 'the counts of both are taken together' "$(grep ' merge ' "$asked" | sed "s| [^ ]*/| |g" | paste -sd ';')" \
    'llvm-profdata-99 merge erd.profraw library.profraw -o erd.profdata;llvm-profdata-99 merge -text erd.profdata -o erd.proftext'
equal 'the profile is the new one' "$(head -c 100 "$tree/packaging/profile/erd.proftext")" new

# Where a crate can't be compiled with counts, what was compiled before is not asked, and the profile stays.
for crate in erd erd_c; do
    fake "$tree/packaging/compile.sh" 'echo "no $1 today"; [ "$1" != "$BROKEN" ]'
    echo before > "$tree/packaging/profile/erd.proftext"
    fresh env "BROKEN=$crate" packaging/profile/make.sh
    expect "the profile where $crate is not compiled" 1
    equal "it is told of $crate" "$(cat "$work/err")" "no $crate today"
    equal "what is done without $crate" "$(grep -c '^erd \|^library \|^cc \|^llvm' "$asked")" 0
    equal "the profile that was there before $crate" "$(cat "$tree/packaging/profile/erd.proftext")" before
done

# The program that is packed, with the page, and where it goes.
fake "$tree/packaging/profiled.sh" 'echo "the/$1"'
fake "$tree/packaging/page.sh" 'echo the/page'
fake "$tools/make" 'exit 9'
for row in "tarball.sh $(uname -m) / the/erd" 'tarball.sh aarch64 / out/portable/program-aarch64/erd' 'deb.sh amd64 /usr the/erd'; do
    read -r script processor prefix program <<< "$row"
    [[ $script = deb.sh || $processor = "$(uname -m)" ]] && set -- || set -- "$processor"
    fresh "packaging/$script" "$@"
    expect "$script $* where nothing can be installed" 9
    equal "$script $*: what is asked" "$(grep -v '^rt' "$asked" | sed 's| DESTDIR=/\S*||' | tail -n 2 | paste -sd ';')" \
        "page.sh ;make --no-print-directory -s install PREFIX=$prefix PROGRAM=$program"
done
rm "$tools/make"

# A release, of scripts that make its files: each is asked, in an order in which each finds what it needs.
made() {
    fake "$tree/packaging/$1.sh" "for file in ${*:2}; do echo \"\$0 \$*\" > out/\$file; done"
}
mkdir -p "$tree"/out/{portable,python,release}
made source "erd-$v-source.tar.gz"
made conformance "erd-$v-conformance.tar.gz"
made portable/make portable/erd.wasm
made deb "erd_$v-1_amd64.deb"
made tarball "erd-$v-linux-\${1:-x86_64}.tar.gz"
made library_deb "{liberd0,liberd-dev}_$v-1_\$1.deb"
made library_archives "{liberd-$v-linux-{x86_64,aarch64}.tar.gz,erd-$v-windows-x86_64.zip}"
made portable/javascript "portable/erd-$v.tgz"
made python "python/erd-$v-py3-none-{manylinux_2_17_x86_64,manylinux_2_17_aarch64,win_amd64}.whl"
fake "$tools/python3" '[[ $1 != web/build.py ]] || echo page > "$3"' '[[ $1 != *bill* ]] || echo bill'
touch "$tree/out/release/old" "$tree/out/erd-0.0.1-source.tar.gz"
second=$(date -d "$(sed -n "s/^## $v - //p" CHANGELOG.md) 00:00 UTC" +%s)
fresh packaging/release.sh
expect 'a release' 0
notes 'what makes it' "source.sh ;conformance.sh ;make.sh ;python3 web/build.py out/portable/erd.wasm out/portable/erd.html;deb.sh ;tarball.sh \
;tarball.sh aarch64;library_deb.sh amd64;library_deb.sh arm64;library_archives.sh ;javascript.sh ;python.sh ;rt doc\
;python3 packaging/bill_of_materials.py $v $second $KIT out/release.new"
equal 'its files' "$(cd "$tree/out/release" && LC_ALL=C ls | paste -sd ' ')" "SHA256SUMS erd-$v-conformance.tar.gz erd-$v-linux-aarch64.tar.gz \
erd-$v-linux-x86_64.tar.gz erd-$v-py3-none-manylinux_2_17_aarch64.whl erd-$v-py3-none-manylinux_2_17_x86_64.whl erd-$v-py3-none-win_amd64.whl \
erd-$v-source.tar.gz erd-$v-windows-x86_64.zip erd-$v.spdx.json erd-$v.tgz erd.html erd.wasm erd_$v-1_amd64.deb liberd-$v-linux-aarch64.tar.gz \
liberd-$v-linux-x86_64.tar.gz liberd-dev_$v-1_amd64.deb liberd-dev_$v-1_arm64.deb liberd0_$v-1_amd64.deb liberd0_$v-1_arm64.deb"
run env -C "$tree/out/release" sha256sum --quiet --check --strict SHA256SUMS
expect_text 'the sums of the files' 0 ''
equal 'each has its sum, but for the sums' "$(wc -l < "$tree/out/release/SHA256SUMS")" 19
equal 'the program for this machine' "$(cat "$tree/out/release/erd-$v-linux-x86_64.tar.gz")" 'packaging/tarball.sh '
fresh packaging/release.sh
same_bytes 'at its end the sums are told' "$work/out" "$tree/out/release/SHA256SUMS"

# unmade NAME STATUS TEXT: there is no release, and it is said why
unmade() {
    fresh packaging/release.sh
    expect "$1" 1
    tells "why there is none: $1" "$2"
    said "nothing is left: $1" "$(ls -d "$tree"/out/release* 2> /dev/null)"
}
made python "python/erd-$v-py3-none-{manylinux_2_17_x86_64,manylinux_2_34_x86_64,manylinux_2_17_aarch64}.whl"
rm "$tree"/out/python/*
unmade 'one file is missing, and two stand for one' "no release: one file is wanted for out/python/erd-$v-*manylinux*x86_64.whl, and there are 2: \
out/python/erd-$v-py3-none-manylinux_2_17_x86_64.whl out/python/erd-$v-py3-none-manylinux_2_34_x86_64.whl
no release: there is no out/python/erd-$v-*win_amd64.whl"
for name in source conformance portable/make deb tarball library_deb library_archives portable/javascript python; do
    cp "$tree/packaging/$name.sh" "$work/kept"
    fake "$tree/packaging/$name.sh" 'echo broken >&2; exit 1'
    unmade "$name.sh fails" broken
    cp "$work/kept" "$tree/packaging/$name.sh"
done

# by_wine: a program that ends with status 1 and no word runs once more, and no other does.
export WINEPREFIX=$work/wine
mkdir "$WINEPREFIX"
# by_wine NAME STATUS TEXT LINE ..: what is left of a program that does these lines; $runs is how often it ran
by_wine() {
    rm -f "$WINEPREFIX/runs"
    fake "$tools/wine" 'echo >> "$WINEPREFIX/runs"; runs=$(wc -l < "$WINEPREFIX/runs")' "${@:4}"
    env PATH="$tools:$PATH" tests/shared/by_wine.sh erd.exe canon <<< input > "$work/out" 2> "$work/err"
    status=$?
    expect_text "$1" "$2" "$3"
    runs=$(wc -l < "$WINEPREFIX/runs")
}
by_wine 'a program that wine ends once' 0 'erd.exe canon input' '[ "$runs" -gt 1 ] || exit 1' 'echo "$* $(cat)"'
equal 'how often it ran' "$runs" 2
equal 'it is told' "$(cat "$WINEPREFIX/again")" 'erd.exe canon'
by_wine 'one that it ends always' 1 '' 'exit 1'
equal 'how often that ran' "$runs" 2
by_wine 'a status of 1 with an answer' 1 difference 'echo difference; exit 1'
equal 'how often that ran, and its standard error' "$runs $(cat "$work/err")." '1 .'
by_wine 'a status of 1 with words alone' 1 '' 'echo fault >&2; exit 1'
equal 'how often it ran, and its standard error' "$runs $(cat "$work/err")" '1 fault'
by_wine 'another status with no word' 3 '' 'exit 3'
equal 'how often one of them ran' "$runs" 1

counts
