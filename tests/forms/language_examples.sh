#!/usr/bin/env bash
# Compiles the example of each language in examples/calling, and runs it as docs/API.md says, with nothing of the kit on the
# path: on a report that is accepted, on one that is refused, on bytes that are not JSON, and on two that mean the same or differ.
set -u
. "$(dirname "$0")/../shared/start.sh" || exit 1
. tests/shared/commands.sh
here=$PWD
library=$PWD/out/portable/linux-x86_64
examples=$PWD/examples/calling
one=$PWD/examples/one-unit.json
left=$PWD/examples/county.vendor-a.json
right=$PWD/examples/county.vendor-b.json
sed 's/Ingrith Sablewood/Ingrid Sablewood/' "$right" > "$work/other.json"
sed 's/pre-election/certified/' "$one" > "$work/refused.json"
echo '{' > "$work/broken.json"
cd "$work" || exit 1

# plain COMMAND ..: with the paths and the environment of a new user, and the library where a package would put it
plain() {
    env -i HOME="$work" PATH="$tools" LD_LIBRARY_PATH="$library" LANG=C.UTF-8 "$@"
}
tools=/usr/local/bin:/usr/bin:/bin

# made LANGUAGE COMMAND ..: compiles an example
made() {
    run plain "${@:2}"
    expect "the example in $1" 0
    [ "$status" -eq 0 ]
}

# asked LANGUAGE WORDS FILE ..: the example answers as the program; WORDS is how the program is asked
asked() {
    local language=$1 words=$2 wanted wanted_status why=''
    shift 2
    wanted=$("$here/erd" "$words" "$@" 2>&1)
    wanted_status=$?
    run plain "${caller[@]}" "$@"
    [ "$status" -eq "$wanted_status" ] || why+="status $status, not $wanted_status; $(tail -n 3 "$work/err")"
    [ "$(cat "$work/out")" = "$wanted" ] || why+="it wrote '$(head -c 200 "$work/out")'"
    said "$language: $words ${*##*/}" "$why"
}

# answers LANGUAGE COMMAND ..: the example is called
answers() {
    local language=$1 file
    caller=("${@:2}")
    for file in "$one" "$work/refused.json" "$work/broken.json"; do
        asked "$language" check "$file"
    done
    asked "$language" compare "$left" "$right"
    asked "$language" compare "$left" "$work/other.json"
    asked "$language" compare "$left" "$work/refused.json"
}

# has LANGUAGE COMMAND FILE: whether a tool and a file of a language are there; if not, the language is told as skipped
has() {
    PATH=$tools command -v "$2" > /dev/null || { echo "skipped the example in $1: there is no $2"; return 1; }
    [ -e "$3" ] || { echo "skipped the example in $1: there is no $3"; return 1; }
}

[ -e "$library/liberd.so" ] || (cd "$here" && packaging/portable/linux.sh x86_64) || exit 1

made C cc -I"$library" "$examples/erd_call.c" -L"$library" -lerd -o "$work/in_c" && answers C "$work/in_c"
# The program of docs/API.md, which reads standard input.
block "$here/docs/API.md" c 1 > "$work/check.c"
if made 'C of docs/API.md' cc -I"$library" "$work/check.c" -L"$library" -lerd -o "$work/check"; then
    caller=(bash -c '"$0" < "$1"' "$work/check")
    for file in "$one" "$work/refused.json" "$work/broken.json"; do
        asked 'C of docs/API.md' check "$file"
    done
fi
has 'C#' mcs "$library" && made 'C#' mcs -out:"$work/ErdCall.exe" "$examples/ErdCall.cs" && answers 'C#' mono "$work/ErdCall.exe"
jna=/usr/share/java/jna.jar
has Java javac "$jna" && made Java javac -cp "$jna" -d "$work" "$examples/ErdCall.java" &&
    answers Java java -cp "$work:$jna" ErdCall
rust=$(command -v rustc)
if [ -n "$rust" ]; then
    # rustup finds its toolchain by the home folder
    run env LD_LIBRARY_PATH="$library" "$rust" --edition 2021 -O -L "$library" "$examples/erd_call.rs" -o "$work/in_rust"
    expect 'the example in Rust' 0
    [ "$status" -eq 0 ] && answers Rust "$work/in_rust"
else
    echo 'skipped the example in Rust: there is no rustc'
fi
if has Python python3 "$here/bindings/python"; then
    answers Python env PYTHONPATH="$here/bindings/python/src" PYTHONDONTWRITEBYTECODE=1 ERD_LIBRARY="$library/liberd.so.0" \
        python3 "$examples/erd_call.py"
fi
if has JavaScript node "$here/bindings/js" && has JavaScript node "$here/out/portable/erd.wasm"; then
    mkdir -p node_modules
    cp -r "$here/bindings/js" node_modules/erd
    cp "$here/out/portable/erd.wasm" node_modules/erd
    cp "$examples/erd_call.mjs" "$work"
    answers JavaScript node "$work/erd_call.mjs"
fi

counts
