#!/usr/bin/env bash
# Holds the manual page, and the commands and statuses of docs/GUIDE.md, against the built program: its subcommands with what they
# take, their options, its exit statuses, and by its words each sentence of its help. One line a case.
set -u
. "$(dirname "$0")/../shared/start.sh" || exit 1
erd=$PWD/erd
page=docs/erd.1
. tests/shared/commands.sh

# section NAME: the lines of a section of the page
section() {
    awk -v title=".SH $1" '/^\.SH /{ inside = $0 == title; next } inside' "$page"
}

# terms NAME: the terms of the lists in a section, one a line
terms() {
    section "$1" | awk 'is_term { print } { is_term = $0 == ".TP" }' | sed 's/^\.BI* //; s/"//g' | tr -s ' '
}

# under TITLE: the lines of the text on standard input that stand under a title, up to an empty line
under() {
    awk -v title="$1:" '$0 == title { inside = 1; next } inside && NF == 0 { exit } inside' | sed 's/^ *//' | tr -s ' '
}

names=$("$erd" --help | under Commands | cut -d ' ' -f 1)
equal 'the subcommands of the page' "$(terms SUBCOMMANDS | cut -d ' ' -f 1)" "$names"

for name in $names; do
    [ "$name" = help ] && continue
    usage=$("$erd" help "$name" | sed -n 's/^Usage: erd //p' | tr -d '<>')
    equal "what $name takes" "$(terms SUBCOMMANDS | grep "^$name ")" "$usage"
done

# options NAME: the options of a subcommand, one a line, but for that of the help
options() {
    "$erd" help "$1" | sed -n 's/^ *\(--[a-z-]*\( <[A-Z]*>\)\{0,1\}\)$/\1/p' | tr -d '<>'
}

equal 'the options of the page' "$(terms OPTIONS | tr -d '\\' | sort)" "$(for name in $names; do
    [ "$name" = help ] || options "$name"
done | sort -u)"

statuses=$("$erd" --help | under 'Exit status')
paged=$(section 'EXIT STATUS' | sed -n '/^\.B [0-9]/{ s/^\.B //; N; s/\n/ /; p; }')
equal 'the statuses of the page' "$paged" "$statuses"

numbers=$(cut -d ' ' -f 1 <<< "$statuses")
for name in $names; do
    [ "$name" = help ] && continue
    equal "the statuses of $name" "$(cut -d ' ' -f 1 <<< "$paged")" \
        "$("$erd" help "$name" | under 'Exit status' | cut -d ' ' -f 1)"
done
equal 'the statuses of docs/GUIDE.md' "$(sed -n 's/^| \([0-9]\) |.*/\1/p' docs/GUIDE.md | sort -u)" "$numbers"

# words: the words of the text on standard input in one line, without signs and without the marks of the page
words() {
    sed 's/^\.[A-Z]* *//; s/\\f.//g; s/\\//g' | tr -cs '[:alnum:]@' ' '
}

# sentences: the sentences of the text on standard input up to the usage, one a line, without the examples
sentences() {
    sed '/^Usage:/,$d; /^  /d' | awk 'BEGIN { RS = "" } { gsub(/\n/, " "); gsub(/[.] /, ".\n"); print }'
}

# about NAME: what the page says of a subcommand
about() {
    section SUBCOMMANDS | awk -v head=".BI $1 " '/^\.TP/ { inside = 0 } index($0, head) == 1 { inside = 1 } inside'
}

# holds WHERE TEXT ..: the words of each text stand in those of WHERE
holds() {
    local where=$1 text
    shift
    for text; do
        text=$(words <<< "$text")
        said "the page says:${text:0:60}.." "$([[ "$where " == *" ${text# }"* ]] || echo "not in: ${where:0:300}")"
    done
}

page_words=" $(words < "$page")"
mapfile -t told < <("$erd" --help | sentences | sed 's/^Puts //')
holds "$page_words" "${told[@]}"
for name in $names; do
    [ "$name" = help ] && continue
    help=$("$erd" help "$name")
    mapfile -t told < <(sentences <<< "$help")
    mapfile -t options < <(options "$name" | cut -d ' ' -f 1)
    for option in "${options[@]}"; do
        told+=("$(sed -n "/^ *$option\( <[A-Z]*>\)\{0,1\}\$/,/^\$/{//!p}" <<< "$help" | tr '\n' ' ')")
    done
    holds "$page_words" "${told[@]}" "$("$erd" --help | under Commands | sed -n "s/^$name //p")"
    holds " $(about "$name" | words)" "$(under 'Exit status' <<< "$help" | head -n 3)"
    equal "the other statuses of $name" "$(under 'Exit status' <<< "$help" | tail -n +4)" "$(tail -n +4 <<< "$statuses")"
done

# in_order NAME TEXT WORDS: these words stand in the text, one after another
in_order() {
    local pattern
    pattern=$(words <<< "$3" | sed 's/^ *//; s/ *$//; s/ /\\b.*\\b/g')
    said "$1" "$(words <<< "$2" | grep -qi "\b$pattern\b" || echo "not in this order: $3")"
}

for name in check canon compare differences; do
    in_order "docs/GUIDE.md on $name" "$("$erd" help "$name")" "$(sed -n "s/^| \`erd $name [A-Z ]*\` |[^|]*| \(.*\) |$/\1/p" docs/GUIDE.md)"
done
for number in 0 1 2; do
    in_order "docs/GUIDE.md on status $number" "$(sed -n "s/^| $number | \([^|]*\) |.*/\1/p" docs/GUIDE.md)" \
        "$(sed -n "s/^$number //p" <<< "$statuses" | sed 's/,* or / /g')"
done

# A status that no run has here is that of a run that is out of memory.
met=$(
    for file in examples/one-unit.json tests/pages/manual.sh tests/nosuch; do
        "$erd" check "$file" > /dev/null 2>&1
        echo $?
    done
    "$erd" compare examples/one-unit.json examples/small-ballot.json > /dev/null
    echo $?
    echo 4
)
equal 'the statuses of runs' "$numbers" "$(sort -u <<< "$met")"

counts
