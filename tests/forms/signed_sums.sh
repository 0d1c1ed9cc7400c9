#!/usr/bin/env bash
# Signs and verifies sums with the commands of CONTRIBUTING.md, with keys that are made here and thrown away. One line a case.
set -u
. "$(dirname "$0")/../shared/start.sh" || exit 1
. tests/shared/commands.sh
mkdir "$work/release"
cp LICENSE-MIT "$work/release/file"
(cd "$work/release" && sha256sum file > SHA256SUMS)
export GNUPGHOME=$work/keys
mkdir -m 700 "$GNUPGHOME"

# commands WORD: the commands of the page that begin with the word
commands() {
    sed -n "s/^ *\($1 .*\)/\1/p" CONTRIBUTING.md | sed 's/ *# .*//'
}

# each NAME WORD STATUS: the commands of the page that begin with the word end with this status, all but the first with it alone
each() {
    local command
    while read -r command; do
        run env -C "$work/release" sh -c "$command"
        expect "$1: $command" "$([[ $command == *-V* || $command == *verify* || $command == sha256sum* ]] && echo "$3" || echo 0)"
    done < <(commands "$2")
}

if command -v minisign > /dev/null; then
    run env -C "$work/release" minisign -G -W -p minisign.pub -s minisign.key
    each 'minisign' minisign 0
else
    echo 'skipped minisign: there is none'
fi
if command -v gpg > /dev/null && command -v gpg-agent > /dev/null; then
    run gpg --batch --quiet --passphrase '' --quick-generate-key 'a <a@a.example>'
    each 'GnuPG' gpg 0
else
    echo 'skipped GnuPG: there is no gpg, or no gpg-agent'
fi
each 'the sums' sha256sum 0
said 'the page has the commands' "$([ "$(commands 'minisign\|gpg\|sha256sum' | wc -l)" -eq 5 ] || echo "it has: $(commands 'minisign\|gpg\|sha256sum')")"
echo x >> "$work/release/file"
run env -C "$work/release" sh -c "$(commands sha256sum)"
expect 'another file is refused' 1
sed -i 's/^./0/' "$work/release/SHA256SUMS"
! command -v gpg > /dev/null || { run env -C "$work/release" sh -c "$(commands gpg | grep verify)"; expect 'GnuPG: other sums are refused' 1; }
! command -v minisign > /dev/null || { run env -C "$work/release" sh -c "$(commands minisign | grep -e -V)"; expect 'minisign: other sums are refused' 1; }
gpgconf --kill all 2> /dev/null
counts
