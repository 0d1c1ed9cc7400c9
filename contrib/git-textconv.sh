#!/bin/sh
# Shows `git diff` the canonical form of a ballot definition in place of the file, with a line for each member. A file that
# a vendor exported again without a change then has no difference, and a corrected name is one line.
#
# Write this line into .gitattributes:
#
#     ballots/*.json diff=erd
#
# and run this once in each clone (with the folder where this script is):
#
#     git config diff.erd.textconv 'sh contrib/git-textconv.sh'
#
# `git diff`, `git show` and `git log -p` then use it; `--no-textconv` turns it off. A version that erd refuses is shown as
# its fault lines, of which a very long list is cut. Where a version could not be judged, or shown, this ends with status 3, and git
# says so. The `@id` names in a canonical form count the objects, so a new object
# renames those after it: `erd compare` names the new object. Python gives the lines, since older versions of jq round numbers
# past 2^53; without Python there is a line for each comma.
set -u
trap '' PIPE
erd=${ERD:-erd}
most_bytes=100000

# stop WORDS: ends with these words and status 3
stop() {
    echo "git-textconv.sh: $1" >&2
    exit 3
}

command -v "$erd" > /dev/null || stop "there is no $erd"
[ $# -eq 1 ] || stop 'one FILE is needed'
{ true 3>&1; } 2> /dev/null || stop 'write failed'

# form: the lines of the canonical form on standard input, with escapes for control characters
form() {
    if command -v python3 > /dev/null; then
        python3 -X utf8 -c '
import json, sys
text = sys.stdin.read()
if text:
    lines = json.dumps(json.loads(text), ensure_ascii=False, indent=2)
    print(lines.translate({code: f"\\u{code:04x}" for code in range(0x7f, 0xa0)}))'
    else
        tr ',' '\n' | cat -v
    fi
}

# faults: the fault lines on standard input, as far as they are shown, and word where there are some
faults() {
    first=$(head -c 1)
    [ -z "$first" ] || echo some >&5
    { printf %s "$first"; head -c "$most_bytes"; } | cat -v
}

# shown COMMAND: what it makes of its input, or word of what is lost
shown() {
    "$1" 2> /dev/null || echo lost >&5
}

# The canonical form comes on standard output, and faults come on standard error. One of the two is empty. What comes on descriptor 5
# is the status of erd, and what is lost.
exec 6>&1
told=$(
    {
        {
            { "$erd" canon -- "$1" 2>&1 >&3 3>&- 4>&- 5>&- 6>&-; echo "erd $?" >&5; } | shown faults >&4
        } 3>&1 4>&6 | shown form >&6
    } 5>&1
)
case $told in
    *lost*) stop 'what erd wrote could not be shown' ;;
    'erd 0') ;;
    # A version that was judged and has no form has a line. What is cut off the faults can't be written, so erd ends with 3 there too.
    *some*'erd '[12]* | *'erd '[12]*some*) ;;
    *some*'erd 3'* | *'erd 3'*some*) [ "$("$erd" check -- "$1" 2> /dev/null | head -c 1)" ] || stop "$1 could not be judged" ;;
    *) stop "$1 could not be judged" ;;
esac
