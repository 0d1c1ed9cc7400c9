# For the test scripts: counts cases, one line each.
passed=0
failed=0

# said NAME WHY: one case is done; it is right where WHY is empty
said() {
    if [ -z "$2" ]; then
        passed=$((passed + 1))
        echo "ok      $1"
    else
        failed=$((failed + 1))
        echo "FAILED  $1: $2"
    fi
}

# last_words FILE ..: the last lines of files, as a reason that is never empty
last_words() {
    echo "it said: $(tail -qn 5 -- "$@")"
}

# counted NAME LOG: adds the counts at the end of what another script has said, and shows its lines
counted() {
    local last
    grep -v '^[0-9]* passed, [0-9]* failed$' "$2"
    last=$(tail -n 1 "$2")
    if [[ $last =~ ^([0-9]+)\ passed,\ ([0-9]+)\ failed$ ]]; then
        passed=$((passed + BASH_REMATCH[1]))
        failed=$((failed + BASH_REMATCH[2]))
    else
        said "$1" "it gave no counts: $last"
    fi
}

# The last line of a script, and its status.
counts() {
    echo "$passed passed, $failed failed"
    [ "$failed" -eq 0 ]
}

# clock SECONDS: as minutes and seconds
clock() {
    printf '%d:%02d' $(($1 / 60)) $(($1 % 60))
}
