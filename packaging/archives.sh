# For the scripts of this folder, after version.sh: archives whose bytes depend on nothing but the files in them. An archive gets
# its name when it is whole, since another script may read the one before. There is a folder to work in, which goes at the end.
work=$(mktemp -d)
trap 'rm -rf "$work"' EXIT

# tarball FOLDER FILE: the folder, with its name, as a compressed tar
tarball() {
    dated "$1"
    tar --create --directory "$(dirname "$1")" --sort=name --format=ustar --owner=0 --group=0 --numeric-owner "$(basename "$1")" \
        | gzip -9n > "$2.$$"
    mv "$2.$$" "$2"
}

# zipped FOLDER FILE: the folder, with its name, as a zip
zipped() {
    python3 - "$1" "$2.$$" "$SOURCE_DATE_EPOCH" << 'END'
import pathlib, sys, time, zipfile
folder, date = pathlib.Path(sys.argv[1]), time.gmtime(int(sys.argv[3]))[:6]
with zipfile.ZipFile(sys.argv[2], 'w') as archive:
    for path in sorted(path for path in folder.rglob('*') if path.is_file()):
        entry = zipfile.ZipInfo(str(path.relative_to(folder.parent)), date)
        entry.compress_type, entry.create_system, entry.external_attr = zipfile.ZIP_DEFLATED, 3, 0o100644 << 16
        archive.writestr(entry, path.read_bytes(), compresslevel=9)
END
    mv "$2.$$" "$2"
}
