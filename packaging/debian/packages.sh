# For deb.sh and library_deb.sh, after version.sh: what all of our Debian packages have.
maintainer=${MAINTAINER:-The maintainers of erd <maintainers@users.noreply.hovigyal.example>}
revision=$version-1

# documented ROOT PACKAGE: gives the package in this folder its copyright and its changelog of Debian
documented() {
    local documents=$1/usr/share/doc/$2 expat copyright notices
    mkdir -p "$documents"
    cat > "$documents/changelog.Debian" << END
erd ($revision) unstable; urgency=medium

  * Version $version. The changelog beside this one says what is new.

 -- $maintainer  $(LC_ALL=C date -u -R -d "$day")
END
    gzip -9n "$documents/changelog.Debian"
    expat=$(sed -e 's/^/ /; s/^ $/ ./' <(tail -n +5 LICENSE-MIT))
    notices=$(python3 packaging/notices.py --debian | sed -e 's/^[[:space:]]*$/./; s/^/ /')
    copyright=$(cat packaging/debian/copyright)
    copyright=${copyright/@EXPAT@/"$expat"}
    printf '%s\n' "${copyright/@NOTICES@/"$notices"}" > "$documents/copyright"
}

# depends ROOT FILE ..: the packages that these files are linked with, for the field Depends
depends() {
    local root=$1 work found
    shift
    set -- "${@/#/$root/}"
    work=$(mktemp -d)
    mkdir "$work/debian"
    printf 'Source: erd\n\nPackage: erd\nArchitecture: any\n' > "$work/debian/control"
    found=$(cd "$work" && dpkg-shlibdeps -O "$@" 2> shlibdeps.log) || {
        cat "$work/shlibdeps.log" >&2
        rm -rf "$work"
        return 1
    }
    rm -rf "$work"
    echo "${found#shlibs:Depends=}"
}

# packed ROOT CONTROL ARCHITECTURE DEPENDS: makes the package in this folder, and writes its name
packed() {
    local root=$1 size package
    size=$(find "$root" -type f -exec du -k --apparent-size {} + | awk '{ sum += $1 } END { print sum }')
    mkdir -p "$root/DEBIAN"
    sed -e "s/@VERSION@/$revision/g; s/@ARCHITECTURE@/$3/; s/@MAINTAINER@/$maintainer/; s/@SIZE@/$size/; s/@DEPENDS@/$4/" \
        "$2" > "$root/DEBIAN/control"
    (cd "$root" && find usr -type f -print0 | LC_ALL=C sort -z | xargs -0 md5sum > DEBIAN/md5sums)
    chmod 644 "$root"/DEBIAN/*
    dated "$root"
    mkdir -p out
    package=out/$(sed -n 's/^Package: //p' "$2")_${revision}_$3.deb
    dpkg-deb --root-owner-group -Zxz --build "$root" "$package.$$" > /dev/null
    mv "$package.$$" "$package"
    echo "$package"
}
