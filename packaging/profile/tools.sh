# For the scripts of this folder, which run at the top of the repository: the tool that reads and writes profiles, and where the
# makers of reports stand.
reports=tests/reports
compiler=$(dirname "$(rt doc)")/toolchain/bin/clang
major=$("$compiler" -dumpversion | cut -d . -f 1)
profdata=llvm-profdata-$major
command -v "$profdata" > /dev/null || {
    echo "$0: there is no $profdata: install the package llvm-$major, or say PROFILE=no to compile without a profile" >&2
    exit 1
}
