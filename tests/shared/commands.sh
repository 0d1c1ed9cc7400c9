# For the scripts that try what is handed on: runs commands and looks at what they left.
# A script that sources this has $work: start.sh makes it.

# run COMMAND ..: leaves the status in $status, and what was written in $work/out and $work/err
run() {
    "$@" < /dev/null > "$work/out" 2> "$work/err"
    status=$?
}

# expect NAME STATUS: the last run ended with the status
expect() {
    said "$1" "$([ "$status" -eq "$2" ] || echo "status $status, not $2; $(tail -n 3 "$work/err")")"
}

# expect_text NAME STATUS TEXT: the last run ended with the status, and wrote the text to standard output
expect_text() {
    local why=''
    [ "$status" -eq "$2" ] || why+="status $status, not $2; "
    [ "$(cat "$work/out")" = "$3" ] || why+="it wrote '$(head -c 200 "$work/out")'; "
    [ -z "$why" ] || why+=$(tail -n 3 "$work/err")
    said "$1" "$why"
}

# block PAGE WORD NUMBER: the block of a page that has this number among those whose three backticks this word follows
block() {
    awk -v word="\`\`\`$2" -v number="$3" '$0 == word { at++; inside = 1; next } /^```/ { inside = 0 } inside && at == number' "$1"
}

# remarks: what stands behind the two slashes, or the sharp, at the ends of lines of code
remarks() {
    sed -n 's~^.*[;)]  *\(//\|#\) ~~p'
}

# same_bytes NAME FILE FILE: two files have the same bytes
same_bytes() {
    said "$1" "$(cmp "$2" "$3" 2>&1)"
}

# equal NAME FOUND WANTED: two texts are equal, and not empty
equal() {
    local why=''
    [ -n "$3" ] || why+='nothing is wanted; '
    [ "$2" = "$3" ] || why+="'$2' is there, and not '$3'"
    said "$1" "$why"
}

# there NAME MODE FILE: a plain file has this mode, and something in it
there() {
    local why=''
    if [ ! -s "$3" ] || [ -L "$3" ]; then
        why='it is missing or empty'
    elif [ "$(stat -c %a "$3")" != "$2" ]; then
        why="its mode is $(stat -c %a "$3"), not $2"
    fi
    said "$1" "$why"
}

# listed NAME KEPT FOLDER: the archive of tar on standard input has exactly the modes, owners and paths of a kept list, below FOLDER.
# With WRITE=yes the list is written anew, to be looked at as a change.
listed() {
    tar --list --verbose --numeric-owner --quoting-style=literal | awk -v folder="$3/" '{
        found = $1 " " $2 " "
        sub(/^[^ ]+ +[^ ]+ +[^ ]+ [^ ]+ [^ ]+ /, "")
        print found (index($0, folder) == 1 ? "./" substr($0, length(folder) + 1) : $0)
    }' | LC_ALL=C sort > "$work/listed"
    [ -z "${WRITE:-}" ] || cp "$work/listed" "$2"
    said "$1" "$(diff "$2" "$work/listed" 2>&1 | grep '^[<>]\|^diff' | head -n 5 | tr '\n' ' ')"
}

# has_all FORM COMMAND ..: whether each command that a form needs is there; if not, the form is told as skipped
has_all() {
    local form=$1 command
    for command in "${@:2}"; do
        command -v "$command" > /dev/null || { echo "skipped $form: there is no $command"; return 1; }
    done
}

# had TOOL: whether the tool is here; where it isn't, root gets the Debian package of this name
had() {
    command -v "$1" > /dev/null && return
    [ "$(id -u)" -eq 0 ] && command -v apt-get > /dev/null || return
    echo "$1 is missing, and is installed"
    from_debian "$1" > "$work/apt" 2>&1
    command -v "$1" > /dev/null
}

# from_debian PACKAGE: installs the package of Debian
from_debian() {
    local -x DEBIAN_FRONTEND=noninteractive
    apt-get -o DPkg::Lock::Timeout=300 update
    apt-get -o DPkg::Lock::Timeout=300 install -y --no-install-recommends "$1"
}

# version_told FOLDER: the source, its version and the version that the changelog of Debian in this folder tells
version_told() {
    gzip -dc "$1/changelog.Debian.gz" | sed -n '1s/^\(.*\) (\(.*\)) .*/\1 \2/p; s/^  \* Version \([0-9.]*[0-9]\)\. .*/\1/p' | paste -sd ' '
}

# described NAME PACKAGE WORDS: a package says what it is for, with these words at the end, who hands it on, how large it is, within a
# tenth, and the sums of its files
described() {
    local folder=$work/described size sum
    rm -rf "$folder"
    dpkg-deb --raw-extract "$2" "$folder"
    equal "what $1 is for" "$(dpkg-deb --field "$2" Description | head -n 1)" "canonical form, check and comparison of ballot definitions$3"
    equal "who hands on $1" "$(dpkg-deb --field "$2" Maintainer)" 'The maintainers of erd <maintainers@users.noreply.hovigyal.example>'
    size=$(find "$folder/usr" -type f -printf '%s\n' | awk '{ sum += $1 } END { print int(sum / 1024) }')
    sum=$(dpkg-deb --field "$2" Installed-Size)
    said "how large $1 is" "$([ $((sum * 10)) -ge $((size * 9)) ] && [ "$sum" -le $((size * 11 / 10 + 20)) ] || echo "it says $sum kB, and has $size")"
    run env -C "$folder" md5sum --quiet --check --strict DEBIAN/md5sums
    expect_text "the sums in $1" 0 ''
    equal "each file of $1 has its sum" "$(sed 's/^[^ ]*  //' "$folder/DEBIAN/md5sums")" "$(cd "$folder" && find usr -type f | LC_ALL=C sort)"
}

# noted FOLDER: the file `copyright` in this folder has the licences of the libraries that are linked
noted() {
    local name why=''
    for name in arrayvec clap fast_float indexmap itoa ryu serde serde_json simdutf8 strsim thiserror 'dlmalloc, in erd.wasm, the npm package and the page'; do
        grep -qx " $name" "$1/copyright" || why+="it lacks $name; "
    done
    said "the notices in ${1##*/}" "$why$(grep -n '^[^ ]' "$1/copyright" | grep -v ':\(Format\|Upstream-Name\|Comment\|Files\|Copyright\|License\):')"
    equal "the licence for all files in ${1##*/}" "$(sed -n '/^Files: \*/,/^$/p' "$1/copyright" | paste -sd ' ')" \
        'Files: * Copyright: 2026 The maintainers of erd License: Expat or Apache-2.0 '
    equal "the words of the Expat licence in ${1##*/}" \
        "$(sed -n '/^License: Expat$/,/^$/p' "$1/copyright" | sed '1d; $d; s/^ //; s/^\.$//')" "$(tail -n +5 LICENSE-MIT)"
}

# guarded NAME FILE: what is loaded on Linux lies anywhere, can't be written once it is linked nor run from its stack, and has no names of
# functions but a name of its own
guarded() {
    local why=''
    readelf -hW "$2" | grep -q 'Type: *DYN' || why+='it lies at one place; '
    readelf -lW "$2" | grep -q GNU_RELRO || why+='what is linked can be written; '
    readelf -dW "$2" | grep -q 'FLAGS.*NOW' || why+='it is linked late; '
    readelf -lW "$2" | grep GNU_STACK | grep -q ' RW ' || why+='its stack can be run; '
    ! readelf -SW "$2" | grep -q '\.symtab' || why+='it has names; '
    readelf -nW "$2" | grep -q 'Build ID: [0-9a-f]\{40\}' || why+='it has no name of its own; '
    said "$1 is guarded" "$why"
}

# guarded_for_windows NAME FILE: the same for Windows, and it tells no time
guarded_for_windows() {
    local found
    found=$(x86_64-w64-mingw32-objdump -p "$2")
    equal "$1 is guarded" "$(grep -o 'HIGH_ENTROPY_VA\|DYNAMIC_BASE\|NX_COMPAT' <<< "$found" | paste -sd ' ')" 'HIGH_ENTROPY_VA DYNAMIC_BASE NX_COMPAT'
    equal "$1 tells no time" "$(sed -n 's/^Time\/Date\s*\(\S.*1970\).*/\1/p' <<< "$found")" 'Thu Jan  1 00:00:00 1970'
    said "$1 has no names" "$(x86_64-w64-mingw32-objdump -t "$2" | grep -i 'erd_start\|rattle_alloc' | head -n 1)"
}

# works NAME PROGRAM EXAMPLES: the program does what it is for, on these examples
works() {
    run "$2" check "$3/one-unit.json"
    expect_text "$1: check" 0 accepted
    run "$2" canon "$3/county.vendor-b.json"
    expect "$1: canon" 0
    same_bytes "$1: the canonical form" "$work/out" examples/county.canonical.json
    run "$2" compare --prefer local-level "$3/county.vendor-a.json" "$3/county.vendor-b.json"
    expect_text "$1: compare" 0 same
}
