#!/usr/bin/env bash
# Tries the package for JavaScript: the module in one process, the command as the program is tried, and the package in a fresh
# folder, with nothing but Debian's tools on the path. One line a case.
set -u
. "$(dirname "$0")/../shared/start.sh" || exit 1
command -v node > /dev/null || { echo 'skipped the package for JavaScript: not installed: nodejs'; counts; exit; }
. tests/shared/commands.sh
. tests/shared/erd_wasm.sh
has_wasm 'the package for JavaScript' || { counts; exit; }

# The module.
conformance/make
for part in module refusals declared; do
    node tests/forms/javascript_$part.mjs > "$work/$part.log" 2>&1
    counted "the module: $part" "$work/$part.log"
done

# in_fresh COMMAND ..: runs a command in a fresh folder, as a user without this repository would
in_fresh() {
    (cd "$work/fresh" && env -i HOME="$work" PATH=/usr/local/bin:/usr/bin:/bin "$@")
}

# The package, in a fresh folder.
mkdir "$work/fresh"
if command -v npm > /dev/null; then
    run packaging/portable/javascript.sh
    expect 'the package' 0
    package=$(echo "$PWD"/out/portable/erd-*.tgz)
    sum=$(sha256sum < "$package")
    rm "$package"
    run packaging/portable/javascript.sh
    equal 'the same bytes each time' "$(sha256sum < "$package")" "$sum"
    python3 tests/forms/archives.py "$package" > "$work/archive.log"
    counted 'what is in the package' "$work/archive.log"
    run in_fresh npm install --silent --offline --no-audit --no-fund "$package"
    expect 'npm install' 0
    erd="$work/fresh/node_modules/.bin/erd"
else
    echo 'skipped npm pack: not installed: npm'
    mkdir -p "$work/fresh/node_modules/erd"
    cp -R bindings/js/. "$work/fresh/node_modules/erd"
    cp "$wasm" "$work/fresh/node_modules/erd"
    erd="$work/fresh/node_modules/erd/erd.mjs"
fi
equal 'its version' "$(sed -n 's/.*"version": "\(.*\)".*/\1/p' bindings/js/package.json)" "$(cat VERSION)"
cat > "$work/fresh/first.mjs" <<'END'
import { readFile } from 'node:fs/promises';
import { load } from 'erd';
const erd = await load();
const [left, right] = await Promise.all(process.argv.slice(2).map((name) => readFile(name)));
const { same, difference } = erd.compare(left, right);
console.log(erd.check(left).outcome, same, difference?.line ?? '');
END
sed 's/Ingrith/Ingrid/' examples/county.vendor-b.json > "$work/typo.json"
run in_fresh node first.mjs "$PWD/examples/county.vendor-a.json" "$PWD/examples/county.vendor-b.json"
expect_text 'a first program: two that mean the same' 0 'accepted true '
run in_fresh node first.mjs "$PWD/examples/county.vendor-a.json" "$work/typo.json"
expect_text 'a first program: two that differ' 0 'accepted false candidate ["local-level","","K-12"]: member "BallotName"'
run in_fresh "$erd" prepare --steps removed,filled-in,visible "$PWD/examples/municipal.raw.json"
expect 'the command that prepares' 0
cp "$work/out" "$work/prepared.json"
run in_fresh node first.mjs "$work/prepared.json" "$work/prepared.json"
expect_text 'what it has prepared' 0 'accepted true '
cat > "$work/fresh/second.mjs" <<'END'
import { readFile } from 'node:fs/promises';
import { load } from 'erd';
import { Preparation, stepsOf } from 'erd/prepare';
const { steps } = new Preparation(await readFile(process.argv[2]), await load()).prepare(stepsOf('visible'));
console.log(steps.map(({ name, count }) => `${name} ${count}`).join());
END
run in_fresh node second.mjs "$PWD/examples/municipal.raw.json"
expect_text 'the module erd/prepare' 0 'gone-candidates 2'
# The programs of its page, and that of docs/API.md: they write what stands beside them.
block bindings/js/README.md js 1 > "$work/fresh/page.mjs"
cp examples/county.vendor-a.json "$work/fresh/vendor-a.json"
cp "$work/typo.json" "$work/fresh/vendor-b.json"
run in_fresh node page.mjs
expect_text 'the program of its page: a difference' 0 "$(remarks < "$work/fresh/page.mjs" | sed -n 2p)"
sed '0,/"VotesAllowed": 1/s//"VotesAllowed": "1"/' examples/county.vendor-a.json > "$work/fresh/vendor-a.json"
run in_fresh node page.mjs
expect_text 'the program of its page: a fault' 0 "$(remarks < "$work/fresh/page.mjs" | head -n 1)"$'\nrefused'
{ echo "import { readFile } from 'node:fs/promises';"; block bindings/js/README.md js 2; } > "$work/fresh/prepare.mjs"
cp examples/municipal.raw.json "$work/fresh/export.json"
run in_fresh node prepare.mjs
expect 'the program of its page that prepares' 0
equal 'a step of it' "$(grep '^write-in-lines ' "$work/out" | sed 's/[1-9][0-9]* 0$/N 0/')" 'write-in-lines N 0'
{
    echo "import { readFileSync } from 'node:fs';"
    echo "const [bytesOfTheModule, report] = ['erd.wasm', 'one-unit.json'].map((name) => readFileSync(name));"
    block docs/API.md js 1
} > "$work/fresh/wasm.mjs"
cp "$wasm" "$work/fresh/erd.wasm"
cp examples/one-unit.json "$work/fresh"
run in_fresh node wasm.mjs
expect_text 'the program of docs/API.md' 0 '0 accepted'

if command -v tsc > /dev/null; then
    cp tests/forms/javascript_types.ts "$work/fresh/types.mts"
    run in_fresh tsc --strict --noEmit --target es2022 --module node16 --moduleResolution node16 types.mts
    said 'the types' "$(head -n 3 "$work/out")"
else
    echo 'skipped the types: not installed: node-typescript'
fi

# The command: a case of each group of the suite, and the table of command lines, beside the program.
works 'the command' "$erd" examples
mkdir "$work/suite"
for name in out/conformance/*/; do
    group=$(basename "$name" | cut -d- -f1)
    [ -e "$work/suite/$group" ] || ln -s "$PWD/$name" "$work/suite/$group"
done
cp out/conformance/run "$work/suite/run"
run "$work/suite/run" "$erd"
said "a case of each group: $(tail -n 1 "$work/out")" "$(grep FAILED "$work/out" | head -n 3)"
run "$work/suite/run" --differences "$erd"
said "the lists of differences of these: $(tail -n 1 "$work/out")" "$(grep FAILED "$work/out" | head -n 3)"
node tests/forms/javascript_command.mjs "$work/fresh/node_modules/erd" > "$work/command.log" 2>&1
counted 'the command on pairs and preferences' "$work/command.log"

# as_program WORD ..: the command writes what the program writes, and ends with its status
as_program() {
    local wanted
    ./erd "$@" < /dev/null > "$work/wanted_out" 2> "$work/wanted_err"
    wanted=$?
    run "$erd" "$@"
    said "as the program: $*" "$([ "$status" -eq "$wanted" ] || echo "status $status, not $wanted; ")$(
        cmp "$work/out" "$work/wanted_out" 2>&1; cmp "$work/err" "$work/wanted_err" 2>&1)"
}
if [ -x erd ]; then
    python3 tests/forms/command_lines.py --beside ./erd 'the command' package,javascript "$erd" > "$work/lines.log"
    counted 'the table of command lines' "$work/lines.log"
    truncate -s 67108864 "$work/long"
    as_program check "$work/long"
    truncate -s +1 "$work/long"
    as_program check "$work/long"
    rm "$work/long"
else
    echo 'skipped the program beside the command: make erd has not been run'
fi
# A package that is not whole.
for missing in erd.wasm lib/engine.mjs; do
    mkdir "$work/part"
    cp -R "$work/fresh/node_modules/erd/." "$work/part"
    rm "$work/part/$missing"
    run node "$work/part/erd.mjs" check examples/one-unit.json
    expect_text "a package without $missing" 3 ''
    said 'it says so in one line' "$([ "$(grep -c '^erd failed: ' "$work/err")/$(wc -l < "$work/err")" = 1/1 ] || last_words "$work/err")"
    rm -r "$work/part"
done
# The command with less memory for the proved code.
mkdir "$work/poor"
cp -R bindings/js/. "$work/poor"
node tests/shared/less_memory.mjs "$wasm" 100 "$work/poor/erd.wasm"
head -c 10000000 /dev/zero | tr '\0' ' ' > "$work/blanks"
run node "$work/poor/erd.mjs" check "$work/blanks"
expect_text 'no memory' 4 ''
equal 'its words' "$(cat "$work/err")" 'no memory'
rm "$work/blanks"

# A file of 50 kB whose list of faults has 150 MB: one long name above many faults.
python3 -c "print('{\"@type\":\"ElectionResults.ElectionReport\",\"Election\":[],\"' + 'n' * 25000 + '\":[' + ','.join(['1.5'] * 6000) + ']}')" \
    > "$work/square.json"
# The most memory of the process itself, as the system says at its end: what a wait says has the memory of its parent in it. One
# thread compiles, so that it is nearly the same each time; with the four that are usual it is up to 25 MB more.
cat > "$work/peak.cjs" <<'END'
const { readFileSync, writeFileSync } = require('node:fs');
process.on('exit', () => writeFileSync(process.env.ROOM, readFileSync('/proc/self/status', 'utf8').match(/VmHWM:\s*(\d+) kB/)[1]));
END
for words in check canon compare differences; do
    files=("$work/square.json")
    [[ $words == c*e || $words == d* ]] && files+=("$work/square.json")
    ROOM=$work/room NODE_OPTIONS="--require $work/peak.cjs --v8-pool-size=1" "$erd" "$words" "${files[@]}" > "$work/out" 2> "$work/err"
    status=$?
    most=$(cat "$work/room")
    said "a square list: $words" "$([ "$status" -eq 1 ] || echo "status $status; ")$([ "$most" -lt 130000 ] || echo "$most kB of memory")"
done
rm "$work/out" "$work/err"

"$erd" canon examples/one-unit.json > /dev/full 2> "$work/err"
status=$?
: > "$work/out"
expect_text 'a write that fails' 3 ''
equal 'its words' "$(cat "$work/err")" 'write failed'
counts
