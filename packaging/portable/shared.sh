# For the scripts that link a shared library: the list of what it exports, for the linker.

# version_script FILE: for ELF
version_script() {
    { echo '{ global:'; exports | sed 's/.*/    &;/'; echo 'local: *; };'; } > "$1"
}

# definitions FILE: for Windows
definitions() {
    { echo 'LIBRARY erd.dll'; echo 'EXPORTS'; exports | sed 's/^/    /'; } > "$1"
}

soname=liberd.so.${version%%.*}
