# For program/command.sh, and for library/c_library.sh, which puts another program into $erd: runs it, and looks at what it wrote.

# expect NAME STATUS OUT ERR: what the last run left in $work/out, $work/err and $status
expect() {
    local why=''
    [ "$status" -eq "$2" ] || why+="status $status, not $2; "
    cmp -s "$work/out" "$3" || why+="other standard output; "
    printf '%s' "$4" > "$work/wanted"
    cmp -s "$work/err" "$work/wanted" || why+="standard error '$(head -c 200 "$work/err")'; "
    said "$1" "$why"
}

# expect_text NAME STATUS OUT ERR: what the last run left, where OUT is the text itself
expect_text() {
    printf '%s' "$3" > "$work/wanted_text"
    expect "$1" "$2" "$work/wanted_text" "$4"
}

# expect_other NAME FILE: the last run wrote a text, and not that of the file
expect_other() {
    local why=''
    [ "$status" -eq 0 ] || why+="status $status, not 0; "
    [ -s "$work/out" ] || why+='nothing on standard output; '
    cmp -s "$work/out" "$2" && why+='the same standard output; '
    [ -s "$work/err" ] && why+="standard error '$(head -c 200 "$work/err")'; "
    said "$1" "$why"
}

# run FILE [WORD ..]: the program on the file
run() {
    local input=$1
    shift
    "$erd" "$@" < "$input" > "$work/out" 2> "$work/err"
    status=$?
}

# call WORD ..: the program with these words, and nothing on standard input
call() {
    run /dev/null "$@"
}
