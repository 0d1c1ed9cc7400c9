# Completion of erd for bash: subcommands, their options with the usual values, and files.

# The options, as tests/pages/tables.py --write writes them:
_erd_options() {
    case $1 in
    check | compare | differences | ballots) options='--json --prefer' ;;
    canon) options='--prefer' ;;
    prepare) options='--list --report --steps --prefer' ;;
    esac
}
_erd_values() {
    case $1 in
    --prefer) values='fips local-level national-level ocd-id other state-level' ;;
    --steps) values='removed filled-in visible view' ;;
    *) return 1 ;;
    esac
}

# _erd_options SUBCOMMAND leaves the options of a subcommand in the caller's variable. _erd_values OPTION leaves the usual values of an
# option there, and fails for what takes no value.
_erd() {
    local word=${COMP_WORDS[COMP_CWORD]} before=${COMP_WORDS[COMP_CWORD - 1]}
    local subcommand=${COMP_WORDS[1]} files=0 offered='' options='' values='' i
    COMPREPLY=()
    if [ "$COMP_CWORD" -eq 1 ]; then
        offered='check canon compare differences ballots prepare help --help'
    elif [ "$subcommand" = help ]; then
        [ "$COMP_CWORD" -eq 2 ] && offered='check canon compare differences ballots prepare help'
    elif [[ $subcommand == @(check|canon|compare|differences|ballots|prepare) ]]; then
        # bash makes three words of --prefer=TYPE
        [ "$word" = = ] && word=''
        [ "$before" = = ] && before=${COMP_WORDS[COMP_CWORD - 2]}
        for ((i = 2; i < COMP_CWORD; i++)); do
            if _erd_values "${COMP_WORDS[i]}"; then
                [ "${COMP_WORDS[i + 1]}" = = ] && i=$((i + 2)) || i=$((i + 1))
            elif [[ ${COMP_WORDS[i]} != -* ]]; then
                files=$((files + 1))
            fi
        done
        _erd_options "$subcommand"
        if _erd_values "$before"; then
            offered=$values
        elif [[ $word == -* && $files -eq 0 ]]; then
            offered="$options --help"
        elif [ "$files" -lt "$([[ $subcommand == @(compare|differences|ballots) ]] && echo 2 || echo 1)" ]; then
            compopt -o default
        fi
    fi
    [ -z "$offered" ] || mapfile -t COMPREPLY < <(compgen -W "$offered" -- "$word")
}
complete -F _erd erd
