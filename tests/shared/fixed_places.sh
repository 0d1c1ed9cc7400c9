# For the scripts that use a sanitizer, before start.sh. The sanitizers need parts of the address space for themselves. Where the
# system puts a program at random places, these parts may be taken, and the program ends; so the script runs once more, at fixed
# places, where the system allows that.
if [ -z "${PLACES_ARE_FIXED:-}" ] && setarch "$(uname -m)" --addr-no-randomize true 2> /dev/null; then
    PLACES_ARE_FIXED=yes exec setarch "$(uname -m)" --addr-no-randomize "$0" "$@"
fi
