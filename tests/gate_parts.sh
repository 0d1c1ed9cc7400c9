# For tests/gate.sh: runs parts beside each other, shows what they say, and sums up what they counted and what they cost. A part is
# a command whose last line is 'N passed, M failed'. It needs counting.sh.
#
# Each part has a folder below $results, numbered in the order of the table at the end. It has the file `command`; once the part
# has begun, `said` and `process`; at its end `processor`, `clock` and `status`, or `lost` where what ran it has died. With the file
# `is_cheaper` its cost is shown, but not kept for tests/pages/gate_times.py. What each part said stays in out/gate, and the counts of all
# in out/gate-counts for packaging/record_gate.sh.
results=$(mktemp -d) || exit 1

# committed: the tree of the commit on which the gate runs, or nothing where something is not committed
committed() {
    [ -n "$(git status --porcelain 2>&1)" ] || git rev-parse 'HEAD^{tree}'
}
tree=$(committed)
began=$SECONDS
count=0
told=''
proof=''

# end_parts: ends what still runs, where the gate itself is ended
end_parts() {
    local folder
    for folder in "$results"/[0-9]*/; do
        [ -e "$folder/status" ] || [ ! -e "$folder/process" ] || kill "$(cat "$folder/process")" 2> /dev/null
    done
    jobs -p | xargs -r kill 2> /dev/null
    rm -rf "$results"
}
trap end_parts EXIT
trap 'exit 130' INT TERM HUP

# planned COMMAND: makes the folder of a part, as $room
planned() {
    count=$((count + 1))
    room=$results/$(printf '%03d' "$count")
    mkdir "$room" && echo "$1" > "$room/command"
}

# run FOLDER: runs a part. One that takes longer than two and a half hours hangs, and is ended.
run() {
    local start=$SECONDS TIMEFORMAT='%U %S' status words
    read -ra words < "$1/command"
    {
        time {
            timeout --kill-after=30 150m "${words[@]}" < /dev/null > "$1/said" 2>&1 &
            echo $! > "$1/process"
            wait $!
            status=$?
        } 2>&3
    } 3>&2 2> "$1/processor"
    echo "$((SECONDS - start))" > "$1/clock"
    echo "$status" > "$1/ended"
    mv "$1/ended" "$1/status"
}

# lane STEP ..: begins to run parts one after another. A step is the text of a command; or, as `proved: erd_c`, a function of the
# gate and its words, which waits for something. Where that fails, the parts after it are not run. It gives way to what `first` runs.
lane() {
    gives_way=5 first "$@"
}

# between STEP ..: the same for parts that nothing waits for, which run where the others leave a processor idle
between() {
    gives_way=15 first "$@"
}

# first STEP ..: the same for parts that give way to none, so that they tell at once what fails, or do not end alone
first() {
    local step steps=()
    for step in "$@"; do
        if [[ ! $step =~ ^[a-z]+: ]]; then
            planned "$step"
            step=$room
        fi
        steps+=("$step")
    done
    (
        trap - EXIT
        renice -n "${gives_way:-0}" -p "$BASHPID" > /dev/null 2>&1
        for step in "${steps[@]}"; do
            if [ -d "$step" ]; then
                run "$step"
            else
                read -ra words <<< "${step#*:}"
                "${step%%:*}" "${words[@]}" || exit
            fi
        done
    ) &
    for step in "${steps[@]}"; do
        [ ! -d "$step" ] || echo $! > "$step/lane"
    done
}

# proof COMMAND: begins to run the part that proves, as $proof. What it says is shown while it says it
proof() {
    first "$1"
    proof=$room
    touch "$proof/said" "$proof/shown"
    tail -n +1 -f --pid="$(cat "$proof/lane")" "$proof/said" &
}

# await: waits until all lanes have ended, and shows of each part, once it has ended, its counts and what failed. It looks at all parts
# each second, and begins no program for it: that took a seventh of a processor
await() {
    local running=yes folder lane
    while [ -n "$running" ]; do
        running=$(jobs -rp)
        for folder in "$results"/[0-9]*/; do
            if [ ! -e "$folder/status" ]; then
                read -r lane < "$folder/lane"
                [[ $'\n'$running$'\n' == *$'\n'$lane$'\n'* ]] || : > "$folder/lost"
            elif [ ! -e "$folder/shown" ]; then
                show "$folder"
                : > "$folder/shown"
            fi
        done
        [ -z "$running" ] || sleep 1
    done
}

# show FOLDER: when a part ended, its last line, and what failed and was skipped
show() {
    echo "$(clock $((SECONDS - began)))  $(cat "$1/command"): $(tail -n 1 "$1/said")"
    notable "$1"
}

# notable FOLDER: the lines of a part that say what failed, and what was skipped
notable() {
    grep -aE '^(skipped|again:|notice:) |FAILED|NOT REFUSED|NOT PROVED|BAD EDIT' "$1/said" | head -c 2000 | sed "s|^|$(cat "$1/command"): |"
}

# keep: leaves in out/gate what each part said
keep() {
    local folder
    rm -rf out/gate && mkdir -p out/gate
    for folder in "$results"/[0-9]*/; do
        [ ! -e "$folder/said" ] || cp "$folder/said" "out/gate/$(tr -cs 'A-Za-z0-9._\n-' _ < "$folder/command")"
    done
}

# ended COMMAND: waits until a part has ended
ended() {
    local folder
    folder=$(dirname "$(grep -lxF "$*" "$results"/[0-9]*/command)")
    until [ -e "$folder/status" ] || [ -e "$folder/lost" ]; do sleep 2; done
}

# missing WHY: what should be there isn't, which is a failure
missing() {
    told+="$1"$'\n'
    failed=$((failed + 1))
}

# add FOLDER: adds what a part said to the sums
add() {
    local command status last lines
    command=$(cat "$1/command")
    [ -s "$1/process" ] || { missing "$command: was not run"; return; }
    [ -e "$1/status" ] || { missing "$command: was lost"; return; }
    status=$(cat "$1/status")
    last=$(grep -aE '^[0-9]+ passed, [0-9]+ failed$' "$1/said" | tail -n 1)
    lines=$(notable "$1")
    told+=${lines:+$lines$'\n'}
    if [[ $last =~ ^([0-9]+)\ passed,\ ([0-9]+)\ failed$ ]]; then
        passed=$((passed + BASH_REMATCH[1]))
        failed=$((failed + BASH_REMATCH[2]))
        [ "$status" -eq 0 ] || [ "${BASH_REMATCH[2]}" -gt 0 ] || missing "$command: ended with status $status"
    elif [ "$status" -eq 124 ] || [ "$status" -eq 137 ]; then
        missing "$command: took too long, and was ended"
    else
        missing "$command: gave no counts"
    fi
}

# how_to_get: how the tools come that parts were skipped for
how_to_get() {
    echo "To run what was skipped: sudo packaging/install_packages.sh installs the packages of Debian for it. On Debian 12, those of"
    echo "LLVM (libclang-rt-22-dev and libclang-rt-22-dev-wasm64) come from the security source: it has to be in the sources of apt, as"
    echo "    deb http://deb.debian.org/debian-security bookworm-security main"
}

# sum_up: what each part cost, what failed and was skipped, and the counts of all
sum_up() {
    local folder
    for folder in "$results"/[0-9]*/; do
        add "$folder"
    done
    echo 'What each part cost:'
    echo ' processor      time  part'
    for folder in "$results"/[0-9]*/; do
        [ -e "$folder/status" ] || continue
        cost "$(spent "$folder/processor")" "$(cat "$folder/clock")" "$(cat "$folder/command")"
        [ -e "$folder/is_cheaper" ] || printf '%s\t%s\n' "$(spent "$folder/processor")" "$(cat "$folder/command")" >> "$results/costs"
    done
    keep
    cp "$results/costs" out/gate-costs
    cost "$(cat "$results"/[0-9]*/processor 2> /dev/null | spent -)" $((SECONDS - began)) 'all parts'
    # Near the end of the log, since of a long one only the end may be shown.
    printf '%s' "${told:+$'What failed, and what was skipped:\n'}" "$told"
    ! grep -q ': skipped ' <<< "$told" || how_to_get
    rm -f out/gate-counts
    [ -z "$tree" ] || [ "$tree" != "$(committed)" ] || echo "$tree $passed passed, $failed failed" > out/gate-counts
    counts
}

# spent FILE: the sum of the processor seconds in its lines
spent() {
    awk '{ sum += $1 + $2 } END { print int(sum + 0.5) }' "$1"
}

# cost SECONDS SECONDS NAME: a line of the table of costs
cost() {
    printf '%8d s  %8s  %s\n' "$1" "$(clock "$2")" "$3"
}
