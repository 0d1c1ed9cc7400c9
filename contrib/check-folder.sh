#!/bin/sh
# Checks many ballot definitions at once:
#
#     check-folder.sh [--prefer TYPE] [--] FOLDER|FILE ..
#
# It checks each FILE, and each *.json file that stands in a FOLDER itself. For each one that is not accepted it prints the name,
# and then the lines of `erd check`, each after two spaces. Of a very long list it prints the beginning. It ends with the highest
# status of `erd check`: 0 if every file is accepted (erd(1) lists the statuses), and 3 where a file could not be judged, as one
# that is no regular file, or what is said of it could not be written. ERD names the program, if it is not `erd`, and JOBS says how
# many files are judged at a time, if not one on each processor. Python's `python -m erd.many` is faster, since it starts no
# program for each file.
set -u
trap '' PIPE
erd=${ERD:-erd}
jobs=${JOBS:-$(getconf _NPROCESSORS_ONLN 2> /dev/null || echo 1)}
most_bytes=100000

usage() {
    echo 'usage: check-folder.sh [--prefer TYPE] [--] FOLDER|FILE ..' >&2
    exit 3
}

# stop WORDS: ends with these words and status 3
stop() {
    echo "check-folder.sh: $1" >&2
    exit 3
}

prefer=
case ${1-} in
    --prefer) prefer=${2-}; [ -n "$prefer" ] || usage; shift 2 ;;
    --prefer=?*) prefer=${1#*=}; shift ;;
esac
case ${1-} in
    --) shift ;;
    -?*) usage ;;
esac
[ $# -gt 0 ] || usage
case $jobs in
    *[!0-9]* | ??????*) stop 'JOBS is a whole number from 1 to 99999' ;;
esac
[ "$jobs" -gt 0 ] || stop 'JOBS is a whole number from 1 to 99999'
command -v "$erd" > /dev/null || stop "there is no $erd"
# A closed standard output would be taken by the next file that is opened.
{ true 3>&1; } 2> /dev/null || stop 'write failed'

work=$(mktemp -d) || stop 'no folder for what is found can be made'
workers=
trap 'rm -rf "$work"' EXIT
trap 'kill $workers 2> /dev/null; exit 130' INT TERM HUP

# judge FILE: leaves what `erd check` says of it in $lines, as far as it is shown, and sets $status
judge() {
    if [ -e "$1" ] && [ ! -f "$1" ]; then
        status=3
        echo 'not a regular file' > "$lines"
        return
    fi
    : > "$lines.status"
    {
        "$erd" check ${prefer:+--prefer "$prefer"} -- "$1" 2>&1
        echo "$?" > "$lines.status"
    } | head -c "$most_bytes" > "$lines"
    status=$(cat "$lines.status")
    # The program can't write what is cut off, and says so by status 3. Only a refused file has so many lines.
    if [ "$status" != 0 ] && is_cut; then
        status=1
    fi
    # A file that was judged and is not accepted has a line.
    case $status in
        [034]) ;;
        [12]) [ -s "$lines" ] || { echo "erd ended with status $status, and no line" > "$lines"; status=3; } ;;
        *) echo "erd ended with status ${status:-unknown}" >> "$lines"; status=3 ;;
    esac
}

is_cut() {
    [ "$(wc -c < "$lines")" -ge "$most_bytes" ]
}

# The name of a file and the names of members may hold control characters, which `cat -v` makes visible.
check() {
    judge "$1"
    if [ "$status" -ne 0 ]; then
        printf '%s' "$1" | cat -v | tr '\n\t' '??'
        echo
        cat -v "$lines" | awk '{ print "  " $0 }'
        ! is_cut || echo '  .. (erd check has the whole list)'
    fi > "$work/file.$at"
    [ -s "$work/file.$at" ] || rm "$work/file.$at"
    if [ "$status" -gt "$worst" ]; then
        worst=$status
    fi
}

# work NUMBER FILE ..: judges one file in every $jobs, from that with this number on
work() {
    number=$1
    shift
    lines=$work/lines.$number
    at=0
    worst=0
    for file in "$@"; do
        [ $((at % jobs)) -ne "$number" ] || check "$file"
        at=$((at + 1))
    done
    echo "$worst" > "$work/worst.$number"
}

# is_there FILE ..: whether the first of them is there
is_there() {
    [ -e "$1" ] || [ -L "$1" ]
}

# the files, in the place of the names
names=$#
while [ "$names" -gt 0 ]; do
    name=$1
    shift
    names=$((names - 1))
    if [ ! -d "$name" ]; then
        set -- "$@" "$name"
    elif is_there "$name"/*.json; then
        set -- "$@" "$name"/*.json
    fi
done
if [ $# -eq 0 ]; then
    echo 'check-folder.sh: there is no *.json file' >&2
    exit 3
fi

[ "$jobs" -le $# ] || jobs=$#
number=0
while [ "$number" -lt "$jobs" ]; do
    work "$number" "$@" &
    workers="$workers $!"
    number=$((number + 1))
done
wait

at=0
worst=0
for file in "$@"; do
    if [ -e "$work/file.$at" ] && ! cat "$work/file.$at" 2> /dev/null; then
        stop 'write failed'
    fi
    at=$((at + 1))
done
while [ "$number" -gt 0 ]; do
    number=$((number - 1))
    status=
    [ ! -e "$work/worst.$number" ] || read -r status < "$work/worst.$number"
    case $status in
        [0-4]) ;;
        *) echo 'check-folder.sh: some files were not judged' >&2; status=3 ;;
    esac
    [ "$status" -le "$worst" ] || worst=$status
done
exit "$worst"
