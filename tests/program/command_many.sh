# For command.sh: reports with many objects of one kind, and pairs of them. What is to be answered is made by
# tests/reports/many_objects.py.

mkdir "$work/many"
"$python" tests/reports/many_objects.py "$work/many"
for file in "$work/many"/*.json; do
    name=$(basename "$file" .json)
    call check "$file"
    expect_text "$name: accepted" 0 $'accepted\n' ''
    call canon "$file"
    expect "$name: its canonical form" 0 "${file%.json}.canonical" ''
    call compare "$file" "${file%.json}.canonical"
    expect_text "$name: it means what its canonical form means" 0 $'same\n' ''
done
for file in "$work/many"/*.left; do
    name=$(basename "$file" .left)
    call compare "$file" "${file%.left}.right"
    status_wanted=1
    [ "$(cat "${file%.left}.answer")" = same ] && status_wanted=0
    expect "$name: the first difference" "$status_wanted" "${file%.left}.answer" ''
done
