#!/usr/bin/env bash
# Proves and builds the program, and leaves it as ./erd. Its crates are proved from the lowest to the program, with a
# line when one begins and one when it ends; what the prover says goes to out/build.log. CPU_LEVEL=x86-64 compiles the program for
# a processor that is older than x86-64-v2.
set -u
cd "$(dirname "$0")/.." || exit 1
. tests/shared/counting.sh
log=$PWD/out/build.log
mkdir -p out && : > "$log" || exit 1

# The crates that the program stands on, by crates.txt, each after those that it stands on itself, and then the program.
order() {
    awk -F: '
        { sub(/#.*/, "") }
        split($1, words, " ") { below[words[1]] = $2 }
        function visit(name, others, count, i) {
            if (!(name in below) || name in done) return
            done[name]
            count = split(below[name], others, " ")
            for (i = 1; i <= count; i++) visit(others[i])
            print name
        }
        END { visit("erd") }' crates.txt
}

# prove CRATE: proves the crate, over those below it, and builds it; its words go to the log
prove() {
    cd "crates/$1" || return
    if [ -e src/main.rt ]; then
        rt run ${CPU_LEVEL:+--cpu "$CPU_LEVEL"} < stdin 2>&1 > /dev/null
    else
        rt lib 2>&1
    fi
}

# The functions that are proved, by the last line of a proof, in the words of a crate.
functions() {
    sed -n 's/^logic=proved functions=\([0-9]*\).*/\1 functions proved/p' <<< "$1" | tail -n 1
}

# What the words of a crate say is wrong or not proved, or else its last words.
reason() {
    grep -m 10 -E '(^|: )error|not proved|: no proof' <<< "$1" || tail -n 5 <<< "$1"
}

# cost CRATE: the processor seconds of its proof from nothing
cost() {
    awk -v crate="$1" '$1 == crate { seconds = $2 } END { print seconds + 0 }' packaging/proof-seconds.txt
}

# Says how long this takes, by the processors that there are and the work that is kept. A second processor saves a third of the
# time, and four save half of it.
tell() {
    local crate kept=0 processors sum=0 part
    processors=$(nproc)
    part=$((processors >= 4 ? 50 : processors >= 2 ? 67 : 100))
    for crate in "${crates[@]}"; do
        if [ -d "crates/$crate/out/incremental" ]; then
            kept=$((kept + 1))
        else
            sum=$((sum + $(cost "$crate")))
        fi
    done
    echo "About $((sum * part / 6000 + 1)) minutes on $processors processors. The proofs of $kept of ${#crates[@]} crates are kept;" \
        'of these, what has changed is proved again.'
}

mapfile -t crates < <(order)
packaging/room.sh
tell
for i in "${!crates[@]}"; do
    crate=${crates[i]}
    start=$SECONDS
    echo "$crate: crate $((i + 1)) of ${#crates[@]}"
    words=$(set -o pipefail; prove "$crate" | tee -a "$log")
    status=$?
    if [ "$status" -ne 0 ]; then
        echo "$crate: not built after $(clock $((SECONDS - start))) min"
        reason "$words"
        echo "The whole log: $log"
        exit 1
    fi
    proved=$(functions "$words")
    echo "$crate: ${proved:-nothing new} in $(clock $((SECONDS - start))) min"
done
cp crates/erd/out/erd erd
