# For the scripts that try what has erd.wasm in it. A script that sources this has $work: start.sh makes it.
wasm=out/portable/erd.wasm

# has_wasm WHAT: whether erd.wasm is there or can be made. Where a package is missing, WHAT is told as skipped.
has_wasm() {
    [ -e "$wasm" ] && return
    packaging/portable/wasm.sh > "$work/out" 2> "$work/err" && return
    if grep -q 'install the package' "$work/err"; then
        echo "skipped $1: $(grep -o 'there is no .*' "$work/err" | head -n 1)"
    else
        said "$1: erd.wasm" "$(tail -n 3 "$work/err")"
    fi
    return 1
}
