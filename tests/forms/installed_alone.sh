#!/usr/bin/env bash
# Installs a release with the commands of the pages, letter for letter, where nothing of the repository is: on a copy of this
# machine in which the repository is an empty folder, all written files are thrown away, and the network is off. RELEASE names the
# folder with the files, if it is not out/release; a word names the cases that are run. What a file or a tool is missing for is
# skipped. One line a case.
set -u
. "$(dirname "$0")/../shared/start.sh" || exit 1
. tests/shared/commands.sh
release=${RELEASE:-out/release}
only=${1:-}
top=$PWD
why=''

# layered LINES WORD ..: lines of a shell in which $root is a fresh layer over the machine, $1 is $work, and $2 the first WORD
layered() {
    unshare --mount --net --pid --fork --kill-child bash -c '
        set -e
        mount -t tmpfs none "$1/layer"
        mkdir "$1/layer/above" "$1/layer/work" "$1/layer/root"
        mount -t overlay overlay -o "lowerdir=/,upperdir=$1/layer/above,workdir=$1/layer/work" "$1/layer/root"
        root=$1/layer/root
        '"$1" bash "$work" "${@:2}"
}
mkdir "$work/layer"
layered true 2> /dev/null || why='no layer over the machine can be mounted here'
[ -e "$release" ] || why="there is no $release: make release"
[ "$(id -u)" -eq 0 ] || why='this takes root'
[ -z "$why" ] || { echo "skipped a release installed alone: $why"; counts; exit; }

# The copy: a layer over the machine, in which sudo is a word and the repository is empty.
mkdir "$work/files" "$work/words"
cp "$release"/* "$work/files"
cp examples/one-unit.json "$work/files/ballots.json"
mkdir "$work/files/examples" && cp examples/calling/* "$work/files/examples"
printf '#!/bin/sh\nexec "$@"\n' > "$work/words/sudo"
chmod +x "$work/words/sudo"

# alone NAME WANTED LINE ..: these lines of a shell, in a fresh copy, in a folder with the release; the last line that they write
alone() {
    local name=$1 wanted=$2
    [[ $name == *"$only"* ]] || return
    shift 2
    printf '%s\n' 'set -e' "$@" > "$work/lines"
    run layered '
        mount -t tmpfs none "$root/tmp"
        cp -r "$1/files" "$root/tmp/release"
        cp "$1/lines" "$root/tmp/lines"
        rm -f "$root/var/lib/man-db/auto-update"
        cp "$1/words/sudo" "$root/usr/local/bin/sudo"
        [ ! -d "$root$2" ] || mount -t tmpfs none "$root$2"
        mount -t proc none "$root/proc"
        mount --rbind /dev "$root/dev"
        exec env -i HOME=/tmp PATH=/usr/local/bin:/usr/bin:/bin:/usr/sbin:/sbin LANG=C.UTF-8 DEBIAN_FRONTEND=noninteractive \
            chroot "$root" bash -c "cd /tmp/release && . /tmp/lines"
    ' "$top"
    said "$name" "$([ "$status" -eq 0 ] || echo "status $status; $(tail -n 3 "$work/err" | tr '\n' ' ')"
        [ "$(tail -n 1 "$work/out")" = "$wanted" ] || echo "it wrote '$(tail -n 1 "$work/out")'")"
}

# line PAGE BEGINNING: the line of a page, or the words in it between backquotes, that begin so
line() {
    { sed -n "s/^\($2.*\)$/\1/p" "$1"; grep -o '`[^`]*`' "$1" | tr -d '`' | grep "^$2"; } | head -n 1 |
        sed "s/  *# .*//; s/VERSION/$(cat VERSION)/; s/FILE/ballots.json/"
}

# has FILE ..: whether the release has a file for each pattern
has() {
    local pattern
    for pattern; do
        compgen -G "$work/files/$pattern" > /dev/null || return 1
    done
}

install_program=$(line docs/INSTALL.md 'sudo apt install .\/erd_')
install_library=$(line docs/API.md 'sudo apt install .\/liberd0')
said 'the pages have the commands' "$(for word in "$install_program" "$install_library"; do [ -n "$word" ] || echo 'one is missing'; done)"

has 'erd_*_amd64.deb' && {
    alone 'the program, as INSTALL.md says' accepted "$install_program" 'erd check ballots.json'
    alone 'the page that the package has' accepted "$install_program" 'test -s /usr/share/doc/erd/erd.html && erd check ballots.json'
    alone 'the examples that the package has' same "$install_program" 'cd /usr/share/doc/erd' \
        'erd compare examples/county.vendor-a.json examples/county.vendor-b.json'
    alone 'the scripts that the package has' accepted "$install_program" 'sh /usr/share/doc/erd/contrib/check-folder.sh ballots.json' \
        'sh /usr/share/doc/erd/contrib/confined.sh check ballots.json'
}
has 'erd-*-linux-x86_64.tar.gz' && alone 'the tarball' accepted 'tar xzf erd-*-linux-x86_64.tar.gz' 'rm *.deb' \
    'erd-*-linux-x86_64/bin/erd check ballots.json'
has 'liberd0_*_amd64.deb' 'liberd-dev_*_amd64.deb' && {
    alone 'C, as API.md says' accepted "$install_library" 'cp examples/* .' "$(line docs/API.md 'cc erd_call.c')" \
        "$(line docs/API.md '.\/erd_call ballots')"
    command -v mcs > /dev/null && alone 'C#, with liberd0 alone' accepted 'sudo apt install ./liberd0_*_amd64.deb' 'cp examples/* .' \
        "$(line docs/API.md 'mcs ErdCall')" "$(line docs/API.md 'mono ErdCall')"
    command -v javac > /dev/null && alone 'Java, with liberd0 and the link of liberd-dev' accepted "$install_library" 'cp examples/* .' \
        "$(line docs/API.md 'javac ')" "$(line docs/API.md 'java -cp')"
    [ -x /usr/bin/rustc ] && alone 'Rust' accepted "$install_library" 'cp examples/* .' \
        "$(line docs/API.md 'rustc ')" "$(line docs/API.md '.\/erd_call ballots')"
}
has 'liberd-*-linux-x86_64.tar.gz' && alone 'the library of the tarball' accepted 'tar xzf liberd-*-linux-x86_64.tar.gz' 'cp examples/* .' \
    'folder=$(echo $PWD/liberd-*-linux-x86_64)' 'export PKG_CONFIG_PATH=$folder/pkgconfig LD_LIBRARY_PATH=$folder' \
    "$(line docs/API.md 'cc erd_call.c')" './erd_call ballots.json'
has 'erd-*-windows-x86_64.zip' && command -v x86_64-w64-mingw32-gcc > /dev/null && alone 'Windows, by mingw' made \
    'python3 -m zipfile -e erd-*-windows-x86_64.zip .' 'cd erd-*-windows-x86_64' 'cp examples/* .' \
    "$(line docs/API.md 'x86_64-w64-mingw32-gcc ')" 'test -s erd_call.exe && echo made'
has 'erd-*-windows-x86_64.zip' && command -v x86_64-w64-mingw32-gcc > /dev/null && command -v wine > /dev/null &&
    alone 'Windows, by wine' accepted 'python3 -m zipfile -e erd-*-windows-x86_64.zip .' 'cd erd-*-windows-x86_64' 'cp examples/* .' \
        "$(line docs/API.md 'x86_64-w64-mingw32-gcc ')" \
        "WINEDEBUG=-all wine erd_call.exe ../ballots.json 2> /dev/null | tr -d '\r'"
has 'erd-*-linux-aarch64.tar.gz' && [ -x /usr/bin/qemu-aarch64 ] && alone 'the tarball for aarch64' accepted \
    'tar xzf erd-*-linux-aarch64.tar.gz' 'qemu-aarch64 -L /usr/aarch64-linux-gnu erd-*-linux-aarch64/bin/erd check ballots.json'
has 'erd-*-windows-x86_64.zip' && command -v wine > /dev/null && alone 'erd.exe, by wine' accepted \
    'python3 -m zipfile -e erd-*-windows-x86_64.zip .' 'cd erd-*-windows-x86_64' \
    'WINEDEBUG=-all wine erd.exe check "examples\small-ballot.json" 2> /dev/null'
if has 'erd-*-manylinux*x86_64.whl' && /usr/bin/python3 -c 'import venv' 2> /dev/null; then
    room=("$(line docs/API.md 'python3 -m venv')" "$(line docs/API.md 'python3 -m pip')")
    alone 'Python, as API.md says' accepted "${room[@]}" 'cp examples/* .' "$(line docs/API.md 'python3 erd_call.py')"
    alone 'the command of the wheel' accepted "${room[@]}" 'erd check ballots.json'
    alone 'its version' "$(cat VERSION)" "${room[@]}" "python3 -c 'import erd; print(erd.__version__)'"
    alone 'many files' 0 "${room[@]}" 'erd-many ballots.json > many.txt; echo $?'
    alone 'a cluster, where there is no distributed' "--scheduler needs the package distributed: python -m pip install 'erd[cluster]' installs it" \
        "${room[@]}" 'erd-many --scheduler tcp://127.0.0.1:1 ballots.json 2>&1 > many.txt || true'
fi
has 'erd-*.tgz' && command -v npm > /dev/null && {
    alone 'JavaScript, as API.md says' accepted "$(line docs/API.md 'npm install')" 'cp examples/* .' \
        "$(line docs/API.md 'node erd_call.mjs')"
    alone 'the command of the package for JavaScript' accepted "$(line docs/INSTALL.md 'npm install --global')" \
        "$(line docs/INSTALL.md 'erd check')"
    alone 'the same, with npx' accepted "$(line docs/API.md 'npm install')" "$(line bindings/js/README.md 'npx --no-install erd check')"
}
has 'erd-*-conformance.tar.gz' && has 'erd_*_amd64.deb' && alone 'the conformance suite' 'all' "$install_program" \
    'tar xzf erd-*-conformance.tar.gz' 'erd-*-conformance/run erd | grep -q " 0 failed$" && echo all'
counts
