# Completion for fish: put this file as "bulgefs.fish" into a folder of fish's completions.

set -l commands format import export ls info check cat get put mv rm mkdir rmdir attr settings history start grow log back redo salvage extract map \
    report diff

# The entries of the folder of a volume that the path typed so far leads to.
function __bulgefs_paths
    set -l plain (string match -v -- '-*' (commandline -opc))
    set -l folder (string replace -r '[^/]*$' '' -- (commandline -ct))
    test -n "$folder"; or set folder /
    test (count $plain) -ge 3; or return
    for name in (bulgefs ls --wait 0 $plain[3] $folder 2>/dev/null)
        echo $folder$name
    end
end

# Whether so many plain words stand before the cursor, the command's name among them.
function __bulgefs_words
    test (count (string match -v -- '-*' (commandline -opc))) -eq $argv[1]
end

complete -c bulgefs -n "not __fish_seen_subcommand_from $commands" -f -a "$commands"
complete -c bulgefs -l json -d 'write JSON'
complete -c bulgefs -l wait -x -d 'seconds to wait for a volume in use'
complete -c bulgefs -s h -l help -d 'how it is used'
complete -c bulgefs -n "__fish_seen_subcommand_from ls info cat get put mv rm mkdir rmdir attr settings history; and __bulgefs_words 3" -f -a '(__bulgefs_paths)'
complete -c bulgefs -n "__fish_seen_subcommand_from mv; and __bulgefs_words 4" -f -a '(__bulgefs_paths)'
complete -c bulgefs -n "__fish_seen_subcommand_from settings; and __bulgefs_words 4" -f -a 'put get'
complete -c bulgefs -n "__fish_seen_subcommand_from attr; and __bulgefs_words 4" -f -a 'get set clear'
complete -c bulgefs -n '__fish_seen_subcommand_from format' -l root -x
complete -c bulgefs -n '__fish_seen_subcommand_from format' -l name -x
complete -c bulgefs -n '__fish_seen_subcommand_from format' -l uuid -x
complete -c bulgefs -n '__fish_seen_subcommand_from format' -l journal -x
complete -c bulgefs -n '__fish_seen_subcommand_from ls' -s l -d 'all fields'
complete -c bulgefs -n '__fish_seen_subcommand_from ls' -s R -d 'all that is below'
complete -c bulgefs -n '__fish_seen_subcommand_from put get' -s r -d 'a folder with all that is in it'
complete -c bulgefs -n '__fish_seen_subcommand_from mkdir' -s p -d 'folders above it too'
complete -c bulgefs -n '__fish_seen_subcommand_from back redo map' -l all
complete -c bulgefs -n '__fish_seen_subcommand_from back' -l dry-run -d 'only say what would change'
complete -c bulgefs -n '__fish_seen_subcommand_from extract' -l damaged -d 'what is whole of a damaged volume'
complete -c bulgefs -n '__fish_seen_subcommand_from map' -l svg -r
