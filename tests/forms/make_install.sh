#!/usr/bin/env bash
# Installs the built program and takes it away again, also below a path with a blank, and tries the completions in the shells that
# are there. One line a case.
set -u
. "$(dirname "$0")/../shared/start.sh" || exit 1
. tests/shared/commands.sh

# completed NAME LINE WORD ..: bash makes these words of the line, where a tab stands for its key
completed() {
    local name=$1 line=$2
    shift 2
    rm -f "$work/words"
    (
        cd "$work/files" || exit 1
        printf '%b\n' "$line" | HISTFILE='' INPUTRC=/dev/null bash --noprofile --rcfile "$work/bashrc" -i
    ) > "$work/out" 2> "$work/err"
    said "bash completes $name" "$(diff <(printf '%s\n' "$@") "$work/words" 2>&1 | tr '\n' ' ')"
}

# Installing, and taking away. The page may be made meanwhile, by another part of the gate.
page=out/portable/erd.html
[ -e "$page" ] || page=''
run make --no-print-directory install DESTDIR="$work/root" PREFIX=/opt/erd
expect 'make install' 0
root=$work/root/opt/erd
there 'the program' 755 "$root/bin/erd"
same_bytes 'the program is the one that was built' "$root/bin/erd" erd
there 'the manual page' 644 "$root/share/man/man1/erd.1"
there 'the completions for bash' 644 "$root/share/bash-completion/completions/erd"
there 'the completions for zsh' 644 "$root/share/zsh/site-functions/_erd"
there 'the completions for fish' 644 "$root/share/fish/vendor_completions.d/erd.fish"
for file in LICENSE-MIT LICENSE-APACHE THIRD-PARTY-NOTICES CHANGELOG.md docs/{GUIDE,FIXES,VENDORS,PROFILE,LIMITS}.md docs/page-{same,difference,ballots,faults}.png; do
    there "$file" 644 "$root/share/doc/erd/$file"
done
for file in examples/*.json examples/README.md contrib/*; do
    same_bytes "$file" "$file" "$root/share/doc/erd/$file"
done
[ -z "$page" ] || same_bytes 'the page for a browser' "$page" "$root/share/doc/erd/erd.html"
run python3 tests/forms/installed_pages.py "$root/share/doc/erd"
expect 'installed pages name installed files' 0
[ "$status" -eq 0 ] || cat "$work/out"
for file in $(grep -o 'share/doc/erd/[A-Za-z/.]*[a-z]' docs/erd.1 | sort -u); do
    said "$file, which the manual page names" "$([ -e "$root/$file" ] || echo 'it is not installed')"
done
said 'nothing stands beside the folder that was named' \
    "$(find "$work/root" ! -type d ! -path "$root/*" | head -n 3)"
works 'installed' "$root/bin/erd" "$root/share/doc/erd/examples"

touch "$root/bin/other" "$root/share/doc/other"
run make --no-print-directory uninstall DESTDIR="$work/root" PREFIX=/opt/erd
expect 'make uninstall' 0
equal 'only the files of others are left' "$(find "$work/root" ! -type d -printf '%f ')" 'other other '
said 'the folder of the documents is gone' "$([ ! -e "$root/share/doc/erd" ] || find "$root/share/doc/erd")"
run make --no-print-directory uninstall DESTDIR="$work/root" PREFIX=/opt/erd
expect 'make uninstall where nothing is left' 0
run make --no-print-directory -n install
said 'without PREFIX it goes below /usr/local' "$(grep -q ' "/usr/local/bin/erd"$' "$work/out" || last_words "$work/out")"

# A path with a blank.
run make --no-print-directory install DESTDIR="$work/with blank" PREFIX='/a b'
expect 'make install below a path with a blank' 0
same_bytes 'the program there' erd "$work/with blank/a b/bin/erd"
run make --no-print-directory uninstall DESTDIR="$work/with blank" PREFIX='/a b'
equal 'nothing of it is left' "$(find "$work/with blank" ! -type d; find "$work/with blank" -name erd) none" ' none'

# Completions.
mkdir -p "$work/files/folder"
touch "$work/files/left.json" "$work/files/left two.json" "$work/files/right.json"
cat > "$work/bashrc" << END
. '$PWD/packaging/completions/erd.bash'
erd() { printf '%s\n' "\$@" > '$work/words'; }
bind '"\t": insert-completions'
END
types=(fips local-level national-level ocd-id other state-level)
completed 'the subcommands' 'erd c\t' canon check compare
completed 'all first words' 'erd \t' --help ballots canon check compare differences help prepare
completed 'the subcommands of help' 'erd help co\t' help compare
completed 'nothing after help of a subcommand' 'erd help check \t' help check
completed 'a file of check' 'erd check r\t' check right.json
completed 'a file with a blank in its name' 'erd canon left\\ \t' canon 'left two.json'
completed 'no second file of canon' 'erd canon left.json r\t' canon left.json r
completed 'the first file of compare' 'erd compare r\t' compare right.json
completed 'the second file of compare' 'erd compare left.json r\t' compare left.json right.json
completed 'the second file of differences' 'erd differences left.json r\t' differences left.json right.json
completed 'the second file of ballots' 'erd ballots left.json r\t' ballots left.json right.json
completed 'no third file of compare' 'erd compare left.json right.json r\t' compare left.json right.json r
completed 'the option' 'erd check --p\t' check --prefer
# Of each subcommand the options that its help lists.
for subcommand in check canon compare differences; do
    mapfile -t options < <(./erd help "$subcommand" | sed -n 's/^ .*\(--[a-z-]*\)\( <[A-Z]*>\)\{0,1\}$/\1/p' | LC_ALL=C sort)
    completed "the options of $subcommand" "erd $subcommand --\t" "$subcommand" "${options[@]}"
done
completed 'no option after a file' 'erd compare left.json --p\t' compare left.json --p
completed 'the types of identifiers' 'erd check --prefer \t' check --prefer "${types[@]}"
completed 'a type' 'erd check --prefer loc\t' check --prefer local-level
completed 'a type after =' 'erd check --prefer=loc\t' check --prefer=local-level
completed 'a file after a type' 'erd compare --prefer fips left.json r\t' compare --prefer fips left.json right.json
completed 'nothing of other words' 'erd other r\t' other r

# shell NAME COMMAND ..: the shell, if it is here or can be installed, reads its completions
shell() {
    local name=$1
    shift
    if had "$name"; then
        run "$@"
        expect "$name reads its completions" 0
    else
        echo "skipped $name reads its completions: there is no $name, and it can't be installed here"
    fi
}
shell zsh zsh -n packaging/completions/_erd
shell fish fish --no-execute packaging/completions/erd.fish
# in_fish NAME LINE WORD ..: what fish offers for a line
in_fish() {
    run fish --no-config -c "source packaging/completions/erd.fish; cd '$work/files'; complete -C '$2' | cut -f 1"
    equal "fish completes $1" "$(paste -sd ' ' "$work/out")." "${*:3}."
}
if command -v fish > /dev/null; then
    in_fish 'the subcommands' 'erd c' canon check compare
    in_fish 'all first words' 'erd ' ballots canon check compare differences help prepare
    in_fish 'the subcommands of help' 'erd help co' compare
    in_fish 'the options of check' 'erd check --' --help --json --prefer
    in_fish 'the options of canon' 'erd canon --' --help --prefer
    in_fish 'the options of prepare' 'erd prepare --' --help --list --prefer --report --steps
    in_fish 'the types of identifiers' 'erd ballots --prefer ' fips local-level national-level ocd-id other state-level
    in_fish 'the groups of steps' 'erd prepare --steps ' filled-in removed view visible
    in_fish 'the file of check' 'erd check r' right.json
    in_fish 'the file after an option' 'erd prepare --steps view r' right.json
    in_fish 'no second file of canon' 'erd canon left.json r'
    in_fish 'the second file of compare' 'erd compare left.json r' right.json
    in_fish 'the second file of ballots' 'erd ballots --json left.json r' right.json
    in_fish 'no third file of differences' 'erd differences left.json right.json r'
fi

# in_zsh NAME WORD ..: what the completion for zsh asks of zsh for these words, of which the last is completed
in_zsh() {
    # shellcheck disable=SC2016
    zsh -fc '_describe() { print -r -- "${(P)2}" }; _arguments() { print -rl -- "$@" }; words=("$@"); CURRENT=$#words; . packaging/completions/_erd
    ' zsh "${@:2:$# - 2}" 2>&1 |
        sed 's/:tell.*help:write the help of a subcommand/ ../; s/\[[^]]*\]//; s/:\(type\|steps\):.*/:\1/' | paste -sd ' ' > "$work/out"
    equal "zsh completes $1" "$(cat "$work/out")." "${*: -1}."
}
if command -v zsh > /dev/null; then
    in_zsh 'the subcommands' erd '' 'check .. --help'
    in_zsh 'the subcommands of help' erd help '' 'check ..'
    in_zsh 'nothing after help of a subcommand' erd help check '' ''
    in_zsh check erd check '' '--json --prefer=:type --help :report:_files'
    in_zsh canon erd canon '' '--prefer=:type --help :report:_files'
    in_zsh prepare erd prepare '' '--list --report --steps=:steps --prefer=:type --help :report:_files'
    in_zsh ballots erd ballots '' '--json --prefer=:type --help :report:_files ::right report:_files'
    in_zsh compare erd compare left.json '' '--json --prefer=:type --help :left report:_files :right report:_files'
    in_zsh differences erd differences '' '--json --prefer=:type --help :left report:_files :right report:_files'
fi

counts
