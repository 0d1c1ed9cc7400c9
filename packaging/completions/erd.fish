# Completion of erd for fish: subcommands, their options with the usual values, and files.

# The options, as tests/pages/tables.py --write writes them:
set -g __erd_with_value --prefer --steps
complete -c erd -n '__fish_seen_subcommand_from check compare differences ballots' -l json \
    -d 'answer with JSON on one line, in place of lines of text'
complete -c erd -n '__fish_seen_subcommand_from check canon compare differences ballots prepare' -l prefer -x -a 'fips local-level national-level ocd-id other state-level' \
    -d 'the type of identifier that the keys of objects follow, such as fips or local-level'
complete -c erd -n '__fish_seen_subcommand_from prepare' -l list \
    -d 'list what each step would do, and write no report'
complete -c erd -n '__fish_seen_subcommand_from prepare' -l report \
    -d 'answer with each change as JSON on one line, in place of the prepared report'
complete -c erd -n '__fish_seen_subcommand_from prepare' -l steps -x -a 'removed filled-in visible view' \
    -d 'the steps to do: names of steps or groups, with commas between them'

# Whether another file may be named: one by check, canon and prepare, and two by compare, differences and ballots.
function __erd_takes_file
    set -l words (commandline -opc)
    set -l files 0
    set -l is_value 0
    for word in $words[3..-1]
        if test $is_value = 1
            set is_value 0
        else if contains -- $word $__erd_with_value
            set is_value 1
        else if not string match -q -- '-*' $word
            set files (math $files + 1)
        end
    end
    switch "$words[2]"
        case check canon prepare
            test $files -lt 1
        case compare differences ballots
            test $files -lt 2
        case '*'
            false
    end
end

complete -c erd -f
complete -c erd -n __fish_use_subcommand -a check -d 'tell whether a report is accepted, or its faults'
complete -c erd -n __fish_use_subcommand -a canon -d 'write the canonical form of a report'
complete -c erd -n __fish_use_subcommand -a compare -d 'tell the first difference in what two reports mean'
complete -c erd -n __fish_use_subcommand -a differences -d 'list all differences in what two reports mean'
complete -c erd -n __fish_use_subcommand -a ballots -d 'list the ballots of a report, or those on which two differ'
complete -c erd -n __fish_use_subcommand -a prepare -d 'make an export ready by steps'
complete -c erd -n __fish_use_subcommand -a help -d 'write the help of a subcommand'
complete -c erd -n '__fish_seen_subcommand_from help' -a 'check canon compare differences ballots prepare help'
complete -c erd -l help -d 'write the help'
complete -c erd -n __erd_takes_file -F
