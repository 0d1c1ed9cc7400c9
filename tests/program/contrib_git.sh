# For contrib.sh: the scripts for git in a clone, a text in the place of a file, a hook and a workflow.

# ---- git-textconv.sh
for words in '' "$folder/a.json $folder/d.json"; do
    run contrib/git-textconv.sh $words
    expect_text "git-textconv.sh of ${words:-nothing}" 3 ''
    equal "git-textconv.sh of ${words:-nothing}: its words" "$(cat "$work/err")" 'git-textconv.sh: one FILE is needed'
done
clone=$work/clone
git init -q "$clone"
cp -r contrib "$clone"
mkdir "$clone/ballots"
cd "$clone" || exit 1
# indented SCRIPT NUMBER: a line that stands indented in the comments: the first is for .gitattributes, and the second a command
indented() { sed -n 's/^#     //p' "contrib/$1" | sed -n "$2p"; }
equal 'the line for .gitattributes' "$(indented git-textconv.sh 1)" 'ballots/*.json diff=erd'
equal 'the same line for the hook' "$(indented pre-commit 1)" "$(indented git-textconv.sh 1)"
indented git-textconv.sh 1 > .gitattributes
sh -c "$(indented git-textconv.sh 2)"

# changed: the lines that git shows as taken out or put in
changed() {
    git diff -U0 | sed -n '/^--- /d; /^+++ /d; s/^\([-+]\) */\1/p'
}

cp "$top/examples/county.vendor-a.json" ballots/county.json
git add -A
git commit -qm 'Add the county'
cp "$top/examples/county.vendor-b.json" ballots/county.json
said 'the file of another vendor has no difference' "$(changed)"
said 'git itself shows many' "$([ "$(git diff --no-textconv | grep -c '^[-+]')" -gt 1000 ] || echo "it shows: $(git diff --no-textconv --stat)")"
sed -i 's/Ingrith Sablewood/Ingrid Sablewood/' ballots/county.json
equal 'a changed name is one line' "$(changed)" $'-"BallotName": "Ingrith Sablewood",\n+"BallotName": "Ingrid Sablewood",'
mkdir "$work/tools"
ln -s /usr/bin/* "$work/tools"
rm "$work"/tools/python3*
plainly=$(PATH=$work/bin:$work/tools git diff -U0 | grep -cE '^[-+].*Ingri(th|d) Sablewood')
equal 'a changed name without Python' "$plainly" 2
number=9007199254740992
sed "s/\"VotesAllowed\":1/\"VotesAllowed\":$number/" "$top/examples/county.vendor-b.json" > ballots/county.json
git add -A
sed -i "s/$number/9007199254740993/" ballots/county.json
equal 'a number past 2^53' "$(changed | LC_ALL=C sort -u)" $'+"VotesAllowed": 9007199254740993\n-"VotesAllowed": 9007199254740992'
git reset -q --hard
faulty ballots/county.json
shown=$(changed | grep -v '^-')
equal 'a refused version is shown as its fault lines' "$shown" $'+/Odd^[/@id: carried identity\n+/Status: not pre-election'
endless ballots/county.json
bounded git diff
expect 'a list of faults without end in a version' 0
few_lines 'its beginning is shown'
sed 's/Ingrith/Ingrith\\u007f/' "$top/examples/county.vendor-b.json" > ballots/county.json
equal 'a control character in a form' "$(changed | grep '^+')" '+"BallotName": "Ingrith\u007f Sablewood",'
control=$(PATH=$work/bin:$work/tools git diff -U0 | grep -c '^+.*Ingrith\^? Sablewood')
equal 'a control character in a form without Python' "$control" 1
sed 's/Ingrith/Íngrith/' "$top/examples/county.vendor-b.json" > ballots/county.json
equal 'a letter with an accent stays as it is' "$(changed | grep '^+')" '+"BallotName": "Íngrith Sablewood",'
mv "$work/bin/erd" "$work/bin/away"
run git diff
said 'without the program git says so' "$(grep -q 'there is no erd' "$work/err" || last_words "$work/out" "$work/err")"
expect 'and ends with a status of its own' 128
mv "$work/bin/away" "$work/bin/erd"
git checkout -q ballots

# ---- pre-commit
cp contrib/pre-commit .git/hooks/pre-commit
cp "$top/examples/small-ballot.json" 'ballots/two words.json'
git add -A
run git commit -qm 'Add an accepted definition'
expect 'an accepted definition is committed' 0
faulty 'ballots/two words.json'
git add -A
cp "$top/examples/small-ballot.json" 'ballots/two words.json'
run git commit -qm 'Add a refused definition'
expect 'what is staged is refused, whatever the file is now' 1
equal 'the hook says why' "$(cat "$work/err")" \
    $'ballots/two words.json is not accepted:\n  /Odd^[/@id: carried identity\n  /Status: not pre-election'
git reset -q

# What could not be judged is not refused: the hook ends with 3, which stops git too.
printf '#!/bin/sh\necho read failed; exit 3\n' > "$work/fails"
chmod +x "$work/fails"
for program in nosuch /bin/false "$work/bin/ends" "$work/bin/poor" "$work/fails"; do
    cp "$top/examples/small-ballot.json" ballots/unjudged.json
    git add -A
    run env ERD="$program" .git/hooks/pre-commit
    expect "the hook with ERD=$program" 3
    said 'it calls nothing refused' "$(grep 'is not accepted' "$work/err")"
    run env ERD="$program" git commit -qm 'Add what is not judged'
    expect "git stops with ERD=$program" 1
    git reset -q --hard
done
cp "$top/examples/small-ballot.json" ballots/unjudged.json
faulty ballots/refused.json
git add -A
run env TMPDIR=/nosuch .git/hooks/pre-commit
expect 'the hook without a folder for its work' 3
equal 'the hook without a folder for its work: its words' "$(tail -n 1 "$work/err")" 'pre-commit: no folder for what is found can be made'
run env -C "$work/folder" "$clone/.git/hooks/pre-commit"
expect 'the hook outside a repository' 3
equal 'the hook outside a repository: its words' "$(tail -n 1 "$work/err")" 'pre-commit: git does not say what is staged'
blob=$(git rev-parse :ballots/unjudged.json)
rm -f ".git/objects/${blob%"${blob#??}"}/${blob#??}"
run .git/hooks/pre-commit
expect 'the hook where git has lost a version' 3
equal 'it says which is lost, and which is refused' "$(grep -v '^fatal: ' "$work/err")" \
    $'ballots/refused.json is not accepted:\n  /Odd^[/@id: carried identity\n  /Status: not pre-election
ballots/unjudged.json could not be judged:\n  git does not have it'
git reset -q --hard
faulty ballots/zzz.json
cp "$top/examples/small-ballot.json" ballots/aaa.json
git add -A
blob=$(git rev-parse :ballots/aaa.json)
rm -f ".git/objects/${blob%"${blob#??}"}/${blob#??}"
run .git/hooks/pre-commit
expect 'the hook where a version is lost, and a later one is refused' 3
git reset -q --hard

# refused NAME WHY ..: what is staged is refused for these files, one a line as git writes their names, and is taken back
refused() {
    local name=$1
    shift
    git add -A
    run git commit -qm "$name"
    expect "$name" 1
    equal "$name: what is refused" "$(sed -n 's/ is not accepted:$//p' "$work/err")" "$(printf '%s\n' "$@")"
    git reset -q --hard
}
faulty ballots/a.json
cp "$top/examples/small-ballot.json" ballots/b.json
refused 'a refused definition before an accepted one' ballots/a.json
cp "$top/examples/small-ballot.json" ballots/a.json
faulty ballots/b.json
refused 'a refused definition after an accepted one' ballots/b.json
faulty $'ballots/a\nb.json'
printf x > $'ballots/\e.json'
git config core.quotePath false
printf x > $'ballots/\xc2\x9b.json'
refused 'names with a line feed and control characters' '"ballots/\033.json"' '"ballots/a\nb.json"' '"ballots/\302\233.json"'
git config --unset core.quotePath
endless ballots/a.json
cp "$top/examples/small-ballot.json" ballots/b.json
git add -A
bounded git commit -qm 'Add a list of faults without end'
expect 'a list of faults without end is refused' 1
few_lines 'its beginning is shown'
bounded .git/hooks/pre-commit
expect 'the hook says that it is refused, and not that it could not be judged' 1
equal 'and which it is' "$(grep -v '^  ' "$work/err")" 'ballots/a.json is not accepted:'
git reset -q --hard

# The first commit of a repository, with a file that has no attribute, and one in a folder of another name.
git init -q "$work/first"
mkdir "$work/first/ballots" "$work/first/drafts"
cp .git/hooks/pre-commit "$work/first/.git/hooks"
cp .gitattributes "$work/first"
for name in ballots/a drafts/b; do faulty "$work/first/$name.json"; done
git -C "$work/first" add -A
run git -C "$work/first" commit -qm 'Add a refused definition first'
expect 'the first commit, with a refused definition' 1
equal 'what is refused of the first commit' "$(sed -n 's/ is not accepted:$//p' "$work/err")" ballots/a.json

echo '*x.json diff=erd' >> .gitattributes
cp "$top/examples/small-ballot.json" x.json
ln -s county.json ballots/latest.json
git add -A
run git commit -qm 'Add a link to an accepted definition'
expect 'a link to an accepted definition is committed' 0
faulty 0:x.json
refused 'a name that git could read as a stage' 0:x.json
rm ballots/latest.json
faulty ballots/latest.json
refused 'a link that becomes a file' ballots/latest.json
faulty ballots/runs.json
chmod +x ballots/runs.json
refused 'a file that may be run as a program' ballots/runs.json
git mv ballots/county.json ballots/renamed.json
faulty ballots/renamed.json
refused 'a file of another name' ballots/renamed.json
mkdir drafts
git mv ballots/county.json drafts/county.json
git commit -qm 'Take a definition back'
git mv drafts/county.json ballots/renamed.json
sed -i 's/pre-election/certified/' ballots/renamed.json
refused 'a file that comes from another folder with a fault' ballots/renamed.json
git reset -q --hard HEAD~1
rm x.json
ln -s ballots/county.json x.json
git add -A
run git commit -qm 'Put a link in the place of a file'
expect 'a file that becomes a link' 0

cp "$work/fips.json" ballots/fips.json
git add -A
run git commit -qm 'Add a definition that needs a preference'
expect 'a definition that needs a preference is refused' 1
run env ERD_PREFER=local-level git commit -qm 'Add a definition that needs a preference'
expect 'and committed under it' 0
echo no > notes.json
git add -A
run git commit -qm 'Add another file'
expect 'a file without the attribute is not checked' 0
git rm -q ballots/fips.json
run git commit -qm 'Take a definition out'
expect 'a definition may be taken out' 0

# ---- github-workflow.yml: its steps, with the installed folder in place of the package
steps=$(sed -n 's/^ *run: \(..*\)/\1/p' contrib/github-workflow.yml | grep -v '^|$')
# Its first step takes the package that was named, and installs it only where it has the sum that was named.
awk '/^ *run: \|$/ { inside = 1; next } inside && /^      [-#]/ { exit } inside' contrib/github-workflow.yml > "$work/install"
mkdir "$work/stubs"
cat > "$work/stubs/curl" << 'END'
#!/bin/bash
while [ $# -gt 1 ]; do [ "$1" != --output ] || to=$2; shift; done
echo "$1" > "$ASKED"
printf %s "$SERVED" > "$to"
END
printf '#!/bin/sh\n[ "$1" = dpkg ] && cp "$3" "$INSTALLED"\n' > "$work/stubs/sudo"
chmod +x "$work/stubs/curl" "$work/stubs/sudo"

# installs SERVED SHA256: runs the step as GitHub does, where the place of the package hands out these bytes
installs() {
    rm -f "$work/asked" "$work/installed"
    run env PATH="$work/stubs:$PATH" ASKED="$work/asked" INSTALLED="$work/installed" RUNNER_TEMP="$work" SERVED="$1" SHA256="$2" \
        PACKAGE=https://example.org/erd.deb bash --noprofile --norc -e -o pipefail "$work/install"
}
# the sums of `package` and `packagf`, by another program than that of the step
sum=bc4a71180870f7945155fbb02f4b0a2e3faa2a62d6d31b7039013055ed19869a
other=bbd88b7f516eb2f903d776043971188d0914d9f74e67967a478401a1fcad6982
installs package "$sum"
expect 'the workflow installs a package with its sum' 0
equal 'what it asked for' "$(cat "$work/asked")" https://example.org/erd.deb
equal 'what it installed' "$(cat "$work/installed")" package
for row in "packagf $sum" "package ${sum%?}" "package $other" 'package'; do
    read -r served told <<< "$row"
    installs "$served" "$told"
    said "the workflow installs nothing: $row" "$([ "$status" -ne 0 ] && [ ! -e "$work/installed" ] || echo "status $status, $(ls "$work/installed")")"
done
equal 'the last step of the workflow' "$steps" 'sh /usr/share/doc/erd/contrib/check-folder.sh ballots'
run sh -c "${steps//\/usr\/share\/doc\/erd/.}"
expect_text 'the workflow over accepted definitions' 0 ''
faulty ballots/county.json
run sh -c "${steps//\/usr\/share\/doc\/erd/.}"
expect 'the workflow over a refused one' 1
if python3 -c 'import yaml' 2> /dev/null; then
    # What begins it, what it may do, and its steps in their order. YAML 1.1 reads the word `on` as a truth value.
    run python3 -c '
import sys, yaml
told = yaml.safe_load(open(sys.argv[1]))
job = told["jobs"]["check"]
print(*sorted(told[True]), told["permissions"], *told["jobs"], *(key for key in job if key not in ("runs-on", "steps")))
for step in job["steps"]:
    print(step.get("name", step.get("uses")), *filter(None, [step.get("with")]), *sorted(step.keys() - {"name", "run", "uses", "with"}))' \
        contrib/github-workflow.yml
    expect_text 'the workflow as YAML' 0 "pull_request push {'contents': 'read'} check
Install erd
actions/checkout@11bd71901bbe5b1630ceea73d27597364c9af683 {'persist-credentials': False}
Check the ballot definitions"
else
    echo 'skipped the workflow as YAML: there is no python3-yaml'
fi
