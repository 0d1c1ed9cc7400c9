# For scripts that try those of packaging/, after commands.sh: a copy of packaging/ in $tree, with tools that only note how they were
# called, and a kit that has nothing but these.
tree=$work/tree
tools=$work/tools
asked=$work/asked
mkdir -p "$tree/out" "$tools"
cp -r packaging VERSION CHANGELOG.md "$tree"
export ASKED=$asked KIT=$work/kit

# fake FILE LINE ..: a tool as this file, which notes its name and its words, and then does these lines of a shell
fake() {
    mkdir -p "$(dirname "$1")"
    printf '%s\n' '#!/bin/bash' 'echo "$(basename "$0") $*" >> "$ASKED"' "${@:2}" > "$1.new"
    chmod +x "$1.new"
    mv "$1.new" "$1"
}

# fresh COMMAND ..: runs a command in the folder, with the tools in front of all others; what they are asked is noted anew
fresh() {
    : > "$asked"
    run env -C "$tree" PATH="$tools:$PATH" "$@"
}

# notes NAME TEXT: what the tools were asked, in a line
notes() {
    equal "$1" "$(paste -sd ';' "$asked")." "$2."
}

# tells NAME TEXT: what the last run wrote to standard error
tells() {
    equal "$1" "$(cat "$work/err")." "$2."
}

fake "$tools/rt" 'case $1 in doc) echo "$KIT/page.html" ;; version) echo "1z logic 0" ;; esac'
