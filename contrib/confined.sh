#!/bin/sh
# Runs one command of erd on untrusted files, in a process of its own with limits:
#
#     confined.sh check|canon [--prefer TYPE] FILE
#     confined.sh compare [--prefer TYPE] LEFT RIGHT
#
# Its output and its status are those of erd, with these further statuses: 124 where the time is over, and 125 where the output or
# the errors are longer than OUTPUT: then their beginning is written, and nothing is known but that. Whatever else fails ends with
# 3. Where bwrap may run, the process has no network, sees no file but the program, its libraries and these files, and can write
# none. A FILE that is no regular file, such as /dev/stdin, is copied first, within the same time. These variables set the limits:
#
#     MEMORY    bytes of memory (4000000000)
#     TIME      seconds (60)
#     OUTPUT    bytes of output, and of errors (100000000)
#     SANDBOX   `yes`: end with status 3 where bwrap can't run; `no`: don't use it
#     ERD       the program, if it is not `erd`
set -u
trap '' PIPE
memory=${MEMORY:-4000000000}
seconds=${TIME:-60}
output=${OUTPUT:-100000000}
sandbox=${SANDBOX:-}
most_bytes=67108864

# stop WORDS: ends with these words and status 3
stop() {
    printf '%s\n' "$1" >&2
    exit 3
}

usage() {
    stop "$(sed -n '4,5s/^#  *//p' "$0")"
}

# A stream that is closed would be taken by the next file that is opened. What is to be written to closed errors is lost.
{ true 3>&1; } 2> /dev/null || stop 'write failed'
true 3>&2 || exec 2> /dev/full

# whole NAME VALUE: stops where a limit is no whole number above 0
whole() {
    case $2 in
        '' | *[!0-9]* | 0* | ????????????????*) stop "confined.sh: $1 is a whole number above 0, and not '$2'" ;;
    esac
}
whole MEMORY "$memory"
whole TIME "$seconds"
whole OUTPUT "$output"
case $sandbox in
    '' | yes | no) ;;
    *) stop "confined.sh: SANDBOX is yes or no, and not '$sandbox'" ;;
esac
erd=$(command -v "${ERD:-erd}") || stop 'confined.sh: there is no erd'
for tool in timeout prlimit head mktemp; do
    command -v "$tool" > /dev/null || stop "confined.sh: there is no $tool"
done

case ${1-} in
    check | canon) wanted=1 ;;
    compare) wanted=2 ;;
    *) usage ;;
esac
command=$1
shift
prefer=
if [ "${1-}" = --prefer ]; then
    prefer=${2-}
    [ -n "$prefer" ] || usage
    shift 2
fi
[ $# -eq "$wanted" ] || usage
for file; do
    [ -r "$file" ] && [ ! -d "$file" ] || stop "cannot open
$(printf %s "$file" | LC_ALL=C tr '\001-\037\177' '[?*]' | LC_ALL=C sed 's/\xc2[\x80-\x9f]/?/g')"
done

# regular NAME FILE: sets $regular to a regular file with the bytes of this file, as far as erd would read them
regular() {
    regular=$2
    [ ! -f "$2" ] || return 0
    [ -n "$work" ] || work=$(mktemp -d) || stop 'confined.sh: no folder for a copy can be made'
    regular=$work/$1
    timeout "$seconds" head -c "$((most_bytes + 1))" -- "$2" > "$regular" 2> /dev/null
    case $? in
        0) ;;
        124) exit 124 ;;
        *) stop 'read failed' ;;
    esac
}
work=
trap '[ -z "$work" ] || rm -rf "$work"' EXIT
trap 'exit 130' INT TERM HUP
regular left "$1"
one=$regular
[ "$wanted" -eq 1 ] || regular right "$2"
other=$regular

# in_room WORD ..: bwrap with these words: a room with the programs and the libraries of the system, and with erd, in which nothing
# can be written
in_room() {
    bwrap --unshare-all --die-with-parent --new-session --clearenv --ro-bind /usr /usr --symlink usr/bin /bin --symlink usr/lib /lib \
        --symlink usr/lib64 /lib64 --dev /dev --remount-ro /dev --ro-bind "$erd" /erd "$@"
}

# confined WORD ..: runs these words, in a room where there is one
if [ "$sandbox" != no ] && command -v bwrap > /dev/null && in_room /usr/bin/true 2> /dev/null; then
    erd_there=/erd
    if [ "$wanted" -eq 1 ]; then
        set -- /left
        confined() { in_room --ro-bind "$one" /left --remount-ro / "$@"; }
    else
        set -- /left /right
        confined() { in_room --ro-bind "$one" /left --ro-bind "$other" /right --remount-ro / "$@"; }
    fi
elif [ "$sandbox" = yes ]; then
    stop 'confined.sh: bwrap is missing, or may not run here'
else
    erd_there=$erd
    if [ "$wanted" -eq 1 ]; then set -- "$one"; else set -- "$one" "$other"; fi
    confined() { "$@"; }
fi

# judged: runs erd under its limits. What is written to descriptor 4 is the status of erd itself, which no tool around it can feign,
# and then that of the tools. The shell outlives the signal to end, so that `timeout` kills a program that passes over it.
judged() {
    confined timeout --kill-after=5 "$seconds" prlimit --as="$memory" --cpu="$seconds" --core=0 \
        /bin/sh -c 'trap : TERM; "$@" 4>&-; echo "erd $?" >&4' sh "$erd_there" "$command" ${prefer:+--prefer "$prefer"} -- "$@"
    echo "tools $?" >&4
}

# bounded: hands on what fits, and looks whether more comes
bounded() {
    head -c "$output" 2> /dev/null || echo lost >&4
    [ "$(head -c 1 | wc -c)" -eq 0 ] || echo long >&4
}

# Output and errors go through a pipe each: descriptor 6 is that of the output.
exec 3>&1 5>&2
told=$(
    {
        {
            judged "$@" 2>&1 >&6 3>&- 5>&- 6>&- | bounded >&5 6>&-
        } 6>&1 | bounded >&3
    } 4>&1
)
# the status of erd itself, if it ended
ended=$(printf '%s\n' "$told" | sed -n 's/^erd //p')
case $told in
    *lost*) [ "$ended" = 3 ] || echo 'write failed' >&2; exit 3 ;;
    *long*) exit 125 ;;
    *'tools 124'* | *'tools 137'*) exit 124 ;;
esac
case $ended in
    [0-4]) exit "$ended" ;;
    137 | 152) exit 124 ;;
    *) stop 'confined.sh: erd did not run to its end, as where MEMORY is too little for it to begin' ;;
esac
