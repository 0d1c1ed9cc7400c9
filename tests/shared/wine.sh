# For scripts that run programs for Windows, after start.sh: wine in a folder of its own, which is gone when the script ends.
export WINEPREFIX=$work/wine WINEDEBUG=-all

# begin_wine: makes the folder, and keeps one process there, so that the services of wine do not end and begin anew with each program.
# What they say of themselves goes nowhere.
begin_wine() {
    wine wineboot --init > /dev/null 2>&1
    exec {held}> >(exec wine cmd.exe > /dev/null 2>&1)
}

# told_again NAME: says how often by_wine.sh ran a program once more
told_again() {
    [ ! -e "$WINEPREFIX/again" ] || echo "notice: $1: wine ended $(wc -l < "$WINEPREFIX/again") runs with status 1 and no word, and ran these once more"
}

# end_wine: ends what runs there, and takes away the folder of the script
end_wine() {
    [ ! -d "$WINEPREFIX" ] || wineserver -k 2> /dev/null
    rm -rf "$work"
}
trap end_wine EXIT
