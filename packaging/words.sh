#!/usr/bin/env bash
# Prints the words, one a line, by which the kit's compiler checks and builds one crate over the libraries below it, as they
# stand proved in crates/*/out/rlib.
set -eu
cd "$(dirname "$0")/.."
name=${1?the name of a crate}
top=$PWD
kit=$(dirname "$(rt doc)")

# below CRATE: the repository's crates that it stands on, each once; the libraries of the kit stand in $kit/rlibs
below() {
    awk -F: -v from="$1" '
        { sub(/#.*/, "") }
        { split($1, words, " "); lines[words[1]] = $2 }
        function visit(name, others, count, i) {
            count = split(lines[name], others, " ")
            for (i = 1; i <= count; i++)
                if (others[i] in lines && !(others[i] in done)) { done[others[i]]; visit(others[i]); print others[i] }
        }
        END { visit(from) }' crates.txt
}

# direct CRATE: the libraries that crates.txt names for it
direct() {
    sed -n "s/#.*//; s/^$1\( [a-z]*\)*:\(.*\)/\2/p" crates.txt
}

root=src/lib.rt
[ ! -e "crates/$name/src/main.rt" ] || root=src/main.rt
words=("$root" --crate-name "$name" --extern "std=$kit/rlibs/std.rlib" -L "dependency=$kit/rlibs")
for library in $(direct "$name"); do
    rlib=$top/crates/$library/out/rlib/$library.rlib
    [ -d "crates/$library" ] || rlib=$kit/rlibs/$library.rlib
    words+=(--extern "$library=$rlib")
done
for library in $(below "$name"); do
    words+=(-L "dependency=$top/crates/$library/out/rlib")
done
words+=(--antt-project "$kit/rattle/logic/antt-project.json" --links "$name=")
! grep -q "^$name staticlib:" crates.txt || words+=(--crate-type staticlib)
printf '%s\n' "${words[@]}"
