#!/usr/bin/env bash
# Installs the packages of debian-packages.txt, all at once in three tries, or else each that is available. It needs root, and
# where something is missing it says so and ends with status 0: the tests say what they skip.
set -u
cd "$(dirname "$0")/.." || exit 1
list=packaging/debian-packages.txt
log=$(mktemp)
trap 'rm -f "$log"' EXIT
export DEBIAN_FRONTEND=noninteractive

# installed PACKAGE ..: installs them
installed() {
    apt-get -o DPkg::Lock::Timeout=300 install -y --no-install-recommends "$@" > "$log" 2>&1
}

mapfile -t packages < <(grep -v '^#' "$list" | grep .)
# A package counts as installed if there is a command of its name: npm and rustc often come from elsewhere.
missing=()
for package in "${packages[@]}"; do
    [ "$(dpkg-query -W -f '${db:Status-Status}' "$package" 2> /dev/null)" = installed ] || command -v "$package" > /dev/null ||
        missing+=("$package")
done
[ ${#missing[@]} -gt 0 ] || exit 0
if [ "$(id -u)" -ne 0 ] || ! command -v apt-get > /dev/null; then
    echo "packages that are not installed, since that takes root and apt-get: ${missing[*]}"
    exit 0
fi
for try in 1 2 3; do
    apt-get -o DPkg::Lock::Timeout=300 update > "$log" 2>&1 && installed "${missing[@]}" && exit 0
    echo "packages, try $try of 3: $(tail -n 1 "$log")"
    sleep $((try * 5))
done

# Group by group, and package by package in a group of which one is not available: awk writes each as a line, its comment before
# a tab.
awk '/^#/ { name = substr($0, 3); next }
    NF && !(name in groups) { order[++count] = name }
    NF { groups[name] = groups[name] " " $1 }
    END { for (i = 1; i <= count; i++) print order[i] "\t" groups[order[i]] }' "$list" |
    while IFS=$'\t' read -r name words; do
        group=()
        for package in $words; do
            [[ " ${missing[*]} " = *" $package "* ]] && group+=("$package")
        done
        [ ${#group[@]} -eq 0 ] || installed "${group[@]}" || {
            lacking=()
            for package in "${group[@]}"; do
                installed "$package" || lacking+=("$package")
            done
            echo "packages that are not available, for $name: ${lacking[*]}"
        }
    done
exit 0
