# Completion of hbsign for fish, made by share/make from the program's help.

# Whether the cursor is at this place among the words of this command, options aside; or at a later one.
function __hbsign_at --argument-names command place later
    set -l words (commandline -opc)
    test "$words[2]" = "$command"; or return
    set -l at 1
    set -l has_value
    for word in $words[3..]
        if test -n "$has_value"
            set has_value
            continue
        end
        switch $word
            case --count --format --random --tag
                set has_value yes
            case '-*'
            case '*'
                set at (math $at + 1)
        end
    end
    test -z "$has_value"; or return
    test $at -eq $place; or test -n "$later" -a $at -gt $place
end

function __hbsign_specs
    printf '%s\n' \
        lms:H5/W8 lms:H10/W2 lms:H10/W4 lms:H10/W8 lms:H15/W4 lms:H15/W8 lms:H20/W4 hss:H10/W4,H10/W4 \
        hss:H10/W8,H10/W8 xmss:10 xmss:16 xmss:20
end

complete -c hbsign -f
complete -c hbsign -n __fish_use_subcommand -s h -l help -d 'Print help'
complete -c hbsign -n __fish_use_subcommand -s V -l version -d 'Print version'
complete -c hbsign -n __fish_use_subcommand -a help -d 'Print help'
complete -c hbsign -n '__hbsign_at help 1' -a 'make sign verify retire audit audit-given serve migrate list public'
complete -c hbsign -n __fish_use_subcommand -a make -d 'Makes a key'
complete -c hbsign -n '__hbsign_at make 1' -F
complete -c hbsign -n '__hbsign_at make 2' -F
complete -c hbsign -n '__hbsign_at make 3' -a '(__hbsign_specs)'
set -l seen '__fish_seen_subcommand_from make'
complete -c hbsign -n $seen -l format -x -a '1 2' -d 'Format of the state file'
complete -c hbsign -n $seen -l random -r -F -d 'Where random bytes come from'
complete -c hbsign -n $seen -s h -l help -d 'Print help'
complete -c hbsign -n __fish_use_subcommand -a sign -d 'Signs a message under a name'
complete -c hbsign -n '__hbsign_at sign 1' -F
complete -c hbsign -n '__hbsign_at sign 3' -F
complete -c hbsign -n '__hbsign_at sign 4' -F
set -l seen '__fish_seen_subcommand_from sign'
complete -c hbsign -n $seen -l random -r -F -d 'Where random bytes come from'
complete -c hbsign -n $seen -s h -l help -d 'Print help'
complete -c hbsign -n __fish_use_subcommand -a verify -d 'Verifies a signature of a message'
complete -c hbsign -n '__hbsign_at verify 1' -F
complete -c hbsign -n '__hbsign_at verify 2' -F
complete -c hbsign -n '__hbsign_at verify 3' -F
set -l seen '__fish_seen_subcommand_from verify'
complete -c hbsign -n $seen -s h -l help -d 'Print help'
complete -c hbsign -n __fish_use_subcommand -a retire -d 'Skips signatures'
complete -c hbsign -n '__hbsign_at retire 1' -F
set -l seen '__fish_seen_subcommand_from retire'
complete -c hbsign -n $seen -s h -l help -d 'Print help'
complete -c hbsign -n __fish_use_subcommand -a audit -d 'Shows the public key, how many records there are and the free leaves of each level'
complete -c hbsign -n '__hbsign_at audit 1' -F
set -l seen '__fish_seen_subcommand_from audit'
complete -c hbsign -n $seen -l count -x -d 'Decimal number of records that the file once had'
complete -c hbsign -n $seen -l tag -x -d 'Tag of the last of these records'
complete -c hbsign -n $seen -s h -l help -d 'Print help'
complete -c hbsign -n __fish_use_subcommand -a audit-given -d 'Checks signatures that you have'
complete -c hbsign -n '__hbsign_at audit-given 1' -F
complete -c hbsign -n '__hbsign_at audit-given 2 or-later' -F
set -l seen '__fish_seen_subcommand_from audit-given'
complete -c hbsign -n $seen -s h -l help -d 'Print help'
complete -c hbsign -n __fish_use_subcommand -a serve -d 'Signs messages that come as requests on standard input, and replies on standard output'
complete -c hbsign -n '__hbsign_at serve 1' -F
set -l seen '__fish_seen_subcommand_from serve'
complete -c hbsign -n $seen -l random -r -F -d 'Where random bytes come from'
complete -c hbsign -n $seen -s h -l help -d 'Print help'
complete -c hbsign -n __fish_use_subcommand -a migrate -d 'Moves a key to a new state file of format 2'
complete -c hbsign -n '__hbsign_at migrate 1' -F
complete -c hbsign -n '__hbsign_at migrate 2' -F
set -l seen '__fish_seen_subcommand_from migrate'
complete -c hbsign -n $seen -s h -l help -d 'Print help'
complete -c hbsign -n __fish_use_subcommand -a list -d 'Shows what a file is'
complete -c hbsign -n '__hbsign_at list 1' -F
complete -c hbsign -n '__hbsign_at list 2' -F
set -l seen '__fish_seen_subcommand_from list'
complete -c hbsign -n $seen -s h -l help -d 'Print help'
complete -c hbsign -n __fish_use_subcommand -a public -d 'Writes the public key of a state file again'
complete -c hbsign -n '__hbsign_at public 1' -F
complete -c hbsign -n '__hbsign_at public 2' -F
set -l seen '__fish_seen_subcommand_from public'
complete -c hbsign -n $seen -s h -l help -d 'Print help'
