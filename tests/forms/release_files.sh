#!/usr/bin/env bash
# Makes a release in this folder and in another one, compares every byte, and uses its files as a new user would: the packages of
# the library, those for arm64 under qemu, and the archive for Windows under wine. With FORMS_ARE_MADE=yes the first one takes the forms that
# are there; the other one makes each anew. In the gate both take what clang has made of the same module by the same flags. One line a case.
set -u
. "$(dirname "$0")/../shared/start.sh" || exit 1
. tests/shared/commands.sh
. tests/shared/wine.sh
. packaging/version.sh
release=$PWD/out/release
example=$PWD/examples/calling/erd_call.c
one=$PWD/examples/one-unit.json
left=$PWD/examples/county.vendor-a.json
right=$PWD/examples/county.vendor-b.json
tools=/usr/local/bin:/usr/bin:/bin:/usr/sbin:/sbin

missing=''
for command in wasm-opt wasm2wat aarch64-linux-gnu-gcc x86_64-w64-mingw32-gcc dpkg-deb dpkg-shlibdeps npm; do
    command -v "$command" > /dev/null || missing+=" $command"
done
for module in setuptools wheel; do
    /usr/bin/python3 -c "import $module" 2> /dev/null || missing+=" python3-$module"
done
if [ -n "$missing" ]; then
    echo "skipped the release: there is no$missing"
    run packaging/release.sh
    said 'a release that would leave a form out is refused' "$([ "$status" -ne 0 ] && [ ! -e "$release" ] || echo 'it is made')"
    counts
    exit
fi

# plain COMMAND ..: with the paths and the environment of a new user
plain() {
    run env -i HOME="$work" PATH="$tools" LANG=C.UTF-8 WINEPREFIX="$WINEPREFIX" WINEDEBUG=-all "$@"
}

# answers NAME COMMAND ..: the example of C answers as the program
answers() {
    local name=$1
    shift
    plain "$@" "$one"
    expect_text "$name: check" 0 accepted
    plain "$@" "$left" "$right"
    expect_text "$name: compare" 0 same
    plain "$@" "$left" "$one"
    expect "$name: a difference" 1
    same_bytes "$name: the line of a difference" "$work/out" <(./erd compare "$left" "$one")
}

run packaging/release.sh
expect 'a release' 0
[ "$status" -eq 0 ] || { counts; exit; }
run env -C "$release" sha256sum --quiet --check --strict SHA256SUMS
expect_text 'its sums' 0 ''
equal 'the sums are of every file' "$(sed 's/.*  //' "$release/SHA256SUMS" | tr '\n' ' ')" \
    "$(cd "$release" && LC_ALL=C ls | grep -v SHA256SUMS | tr '\n' ' ')"
python3 tests/forms/archives.py "$release"/{*.tgz,*.whl,liberd*.deb,liberd-*.tar.gz,*.zip,*-conformance.tar.gz} > "$work/archives.log"
counted 'what is in the archives' "$work/archives.log"
if git rev-parse --verify -q HEAD > /dev/null 2>&1; then
    equal 'the source has what git has' "$(tar --list --gzip --file "$release/erd-$version-source.tar.gz" | grep -v '/$' | sed 's|^[^/]*/||' | LC_ALL=C sort)" \
        "$(git ls-tree -r --name-only HEAD | LC_ALL=C sort)"
fi
run python3 tests/forms/release_bill.py "$release" "$version"
expect_text 'the bill of materials' 0 ''

# In the gate, what clang has made of the same module serves in both folders, so no path of a folder may be in it.
said 'no form has the path of this folder' "$(grep -rlF "$PWD/" out/portable "$release" | head -n 3)"

# The same in another folder. What is proved and compiled here serves there. Where CASES, as of wrong lines, leave this out, the folder
# has the files that were made here.
copy=$work/another/folder
mkdir -p "$copy"/crates/erd{,_c}/out "$copy/out/c" "$copy/out/profiled"
tar --create --exclude=./.git --exclude=./out --exclude=./crates --exclude=node_modules . | tar --extract --directory "$copy"
[ ! -e .git ] || ln -s "$PWD/.git" "$copy/.git"
cp -p crates/erd_c/out/liberd_c.a crates/erd_c/out/module.bc crates/erd_c/out/module.bc.of "$copy/crates/erd_c/out"
cp -p crates/erd/out/{erd,module.bc,module.bc.of} "$copy/crates/erd/out"
cp -p out/c/* "$copy/out/c"
[ "${PROFILE:-}" = no ] || cp -p out/profiled/* "$copy/out/profiled"
if [[ -z ${CASES:-} || $CASES == *'a release in another folder'* ]]; then
    run env -u FORMS_ARE_MADE "$copy/packaging/release.sh"
    expect 'a release in another folder' 0
    for file in "$release"/*; do
        # What the other folder lacks of the source comes from git.
        [ -e .git ] || [[ $file != *-source.tar.gz && $file != */SHA256SUMS && $file != *.spdx.json ]] || continue
        same_bytes "the same bytes: $(basename "$file")" "$file" "$copy/out/release/$(basename "$file")"
    done
else
    cp -r out/. "$copy/out"
fi

# A form that is missing stops the release, and leaves none.
sed -i '1i portable/other.wasm' "$copy/packaging/release-files.txt"
sed -i '/^packaging\/[a-z_]*\.sh\|^packaging\/portable\|^python3 web/d' "$copy/packaging/release.sh"
run "$copy/packaging/release.sh"
expect 'a form that is missing stops it' 1
equal 'what it says' "$(cat "$work/err")" 'no release: there is no out/portable/other.wasm'
said 'nothing is left of it' "$(ls -d "$copy"/out/release* 2> /dev/null)"

# Nor does one of two files stand for its form: which is meant, nobody knows.
sed -i 1d "$copy/packaging/release-files.txt"
touch "$copy/out/python/erd-$version-0-manylinux_2_0_x86_64.whl"
run "$copy/packaging/release.sh"
expect 'two files in the place of one stop it' 1
equal 'it says which' "$(sed 's/: [^:]*$//' "$work/err")" \
    "no release: one file is wanted for out/python/erd-$version-*manylinux*x86_64.whl, and there are 2"
said 'nothing is left of that' "$(ls -d "$copy"/out/release* 2> /dev/null)"

# The library's packages, in an empty root.
if command -v lintian > /dev/null; then
    run lintian --no-cfg --fail-on error,warning "$release"/liberd*.deb
    expect_text 'lintian has nothing to say of the library' 0 ''
else
    echo 'skipped lintian has nothing to say of the library: there is no lintian'
fi
root=$work/root
mkdir -p "$root/var/lib/dpkg/info" "$root/var/lib/dpkg/updates"
touch "$root/var/lib/dpkg/status"
PATH=$PATH:/usr/sbin:/sbin run dpkg --root="$root" --force-not-root --force-depends --force-script-chrootless --log=/dev/null \
    --install "$release/liberd0_$version-1_amd64.deb" "$release/liberd-dev_$version-1_amd64.deb"
expect 'dpkg installs the library' 0
for package in liberd0 liberd-dev; do
    equal "the version in the changelog of $package" "$(version_told "$root/usr/share/doc/$package")" "erd $version-1 $version"
    noted "$root/usr/share/doc/$package"
done
if command -v pkg-config > /dev/null; then
    found=$(env -i PATH="$tools" PKG_CONFIG_SYSROOT_DIR="$root" PKG_CONFIG_LIBDIR="$root/usr/lib/x86_64-linux-gnu/pkgconfig" \
        PKG_CONFIG_ALLOW_SYSTEM_CFLAGS=1 PKG_CONFIG_ALLOW_SYSTEM_LIBS=1 pkg-config --cflags --libs erd)
else
    echo 'skipped pkg-config: there is none'
    found="-I$root/usr/include -L$root/usr/lib/x86_64-linux-gnu -lerd"
fi
read -ra words <<< "$found"
plain cc "$example" "${words[@]}" -o "$work/shared"
expect 'a program over the shared library' 0
answers 'with liberd0' env LD_LIBRARY_PATH="$root/usr/lib/x86_64-linux-gnu" "$work/shared"
dpkg-deb --raw-extract "$release/liberd0_$version-1_amd64.deb" "$work/liberd0"
mkdir -p "$work/over/debian"
printf 'Source: over\n\nPackage: over\nArchitecture: any\n' > "$work/over/debian/control"
run env -C "$work/over" dpkg-shlibdeps -O -S"$work/liberd0" "$work/shared"
equal 'what a package with this program needs' "$(grep -o 'liberd0 [^,]*' "$work/out")" "liberd0 (>= $version)"
equal 'what liberd-dev needs' "$(dpkg-deb --field "$release/liberd-dev_$version-1_amd64.deb" Depends)" "liberd0 (= $version-1)"
for row in 'liberd0 amd64 libs library' 'liberd0 arm64 libs library' 'liberd-dev amd64 libdevel headers' 'liberd-dev arm64 libdevel headers'; do
    read -r package architecture section kind <<< "$row"
    file=$release/${package}_$version-1_$architecture.deb
    equal "what $package for $architecture is" \
        "$(dpkg-deb --show --showformat '${Package} ${source:Package} ${Version} ${Architecture} ${Multi-Arch} ${Section}' "$file")" \
        "$package erd $version-1 $architecture same $section"
    described "$package for $architecture" "$file" " - $kind"
done
dpkg-deb --control "$release/liberd0_$version-1_amd64.deb" "$work/control"
equal 'what dpkg does after liberd0' "$(cat "$work/control/triggers")" 'activate-noawait ldconfig'
equal 'what other packages need for it' "$(cat "$work/control/shlibs")" "liberd 0 liberd0 (>= $version)"
equal 'the file for pkg-config in the package' "$(cat "$root/usr/lib/x86_64-linux-gnu/pkgconfig/erd.pc")" "prefix=/usr
libdir=\${prefix}/lib/x86_64-linux-gnu
includedir=\${prefix}/include

Name: erd
Description: Canonical form, check and comparison of pre-election ballot definitions
Version: $version
Libs: -L\${libdir} -lerd
Cflags: -I\${includedir}"
# The archive of the library has its own, which names the folder in which it stands.
tar --extract --gzip --file "$release/liberd-$version-linux-x86_64.tar.gz" --directory "$work"
folder=$work/liberd-$version-linux-x86_64
if command -v pkg-config > /dev/null; then
    asked() { env -i PATH="$tools" PKG_CONFIG_LIBDIR="$folder/pkgconfig" pkg-config "$@" erd; }
    equal 'the version in the file for pkg-config of the archive' "$(asked --modversion)" "$version"
    equal 'its folders are those of the archive' "$(asked --cflags --libs | sed "s|$folder/pkgconfig/\.\.|HERE|g; s/ *$//")" '-IHERE -LHERE -lerd'
fi
plain cc -I"$root/usr/include" "$example" "$root/usr/lib/x86_64-linux-gnu/liberd.a" -o "$work/static"
expect 'a program over the static library' 0
answers 'with liberd.a' "$work/static"

# arm64.
if command -v qemu-aarch64 > /dev/null; then
    for package in liberd0 liberd-dev; do
        dpkg-deb --extract "$release/${package}_$version-1_arm64.deb" "$work/arm64"
    done
    below=$work/arm64/usr/lib/aarch64-linux-gnu
    plain aarch64-linux-gnu-gcc -I"$work/arm64/usr/include" "$example" -L"$below" -lerd -o "$work/for_arm64"
    expect 'a program for arm64' 0
    answers 'on arm64' qemu-aarch64 -L /usr/aarch64-linux-gnu -E LD_LIBRARY_PATH="$below" "$work/for_arm64"
    listed 'the files of the tarball for aarch64' packaging/files/erd.tar.txt "erd-$version-linux-aarch64" \
        < <(gzip -dc "$release/erd-$version-linux-aarch64.tar.gz")
    tar --extract --gzip --file "$release/erd-$version-linux-aarch64.tar.gz" --directory "$work"
    plain qemu-aarch64 -L /usr/aarch64-linux-gnu "$work/erd-$version-linux-aarch64/bin/erd" check "$one"
    expect_text 'the program for arm64' 0 accepted
else
    echo 'skipped a program for arm64: there is no qemu-aarch64'
fi

# Windows.
if command -v wine > /dev/null; then
    python3 -m zipfile -e "$release/erd-$version-windows-x86_64.zip" "$work"
    folder=$work/erd-$version-windows-x86_64
    plain x86_64-w64-mingw32-gcc -I"$folder" "$folder/examples/erd_call.c" "$folder/erd.lib" -o "$folder/erd_call.exe"
    expect 'a program for Windows' 0
    begin_wine
    answers 'on Windows' tests/shared/by_wine.sh "$folder/erd_call.exe"
    plain tests/shared/by_wine.sh "$folder/erd.exe" compare "$left" "$right"
    expect_text 'erd.exe' 0 same
    told_again 'the release for Windows'
else
    echo 'skipped a program for Windows: there is no wine'
fi

counts
