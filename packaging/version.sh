# For the scripts of this folder, which run at the top of the repository: the version, its date, and how files are made whose
# bytes depend on nothing else, and which all may read.
umask 022
version=$(cat VERSION)
day=$(sed -n "s/^## $version - //p" CHANGELOG.md)
if [ -z "$day" ]; then
    echo "CHANGELOG.md has no heading '## $version - DATE'" >&2
    exit 1
fi
SOURCE_DATE_EPOCH=$(date -u -d "$day" +%s) || exit 1
export SOURCE_DATE_EPOCH

# dated FOLDER: gives everything in the folder the date of the version, and its usual permissions
dated() {
    find "$1" -type d -exec chmod 755 {} +
    find "$1" -exec touch -h -d "@$SOURCE_DATE_EPOCH" {} +
}
