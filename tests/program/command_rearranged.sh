# For command.sh: random rearrangements of the examples of two vendors, which have their canonical form, and edits of them,
# rearranged as well, which have another one.

python=$(python3 -c 'import sys; print(sys.executable)')
seed=1729 rearrangements=100

# forms_of KIND FORM: runs the program on the reports of the kind. Sets `count` to their number, `like` to those with the
# canonical form FORM, `other` to those with another one, and `neither` to those with none
forms_of() {
    local file
    count=0 like='' other='' neither=''
    for file in "$work/rearranged/$1"-*; do
        count=$((count + 1))
        call canon "$file"
        if [ "$status" -ne 0 ] || [ ! -s "$work/out" ] || [ -s "$work/err" ]; then
            neither+=" ${file##*/}"
        elif cmp -s "$work/out" "$2"; then
            like+=" ${file##*/}"
        else
            other+=" ${file##*/}"
        fi
    done
}

for report in county.vendor-{a,b} two-elections.vendor-{a,b}; do
    form=examples/${report%.*}.canonical.json
    rm -rf "$work/rearranged"
    mkdir "$work/rearranged"
    "$python" tests/reports/rearranged.py "$seed" "$rearrangements" "examples/$report.json" "$work/rearranged"
    forms_of same "$form"
    [ "$count" -eq "$rearrangements" ] || neither+=" $count reports"
    said "$report rearranged at random: its canonical form" "$other$neither"
    for kind in content lines carried identifier translation; do
        forms_of "$kind" "$form"
        [ "$count" -eq $((rearrangements / 5)) ] || neither+=" $count reports"
        said "$report edited and rearranged ($kind): another canonical form" "$like$neither"
    done
done
