# Completion of the words of ots, of Gahopiki, for fish.
#
# It is put as gahopiki-ots.fish, and a link ots.fish leads to it where the program of that name is ours. It completes for the
# command whose name it was read under, so that the words of another project's ots stay that project's.

set -l name (string replace -r '.*/' '' -- (status filename) | string replace -r '\.fish$' '')
set -l commands info canon merge prune verify stamp upgrade sample chain
complete -c $name -f -n "not __fish_seen_subcommand_from $commands"
complete -c $name -n "not __fish_seen_subcommand_from $commands" -a info -d 'Show what a proof says'
complete -c $name -n "not __fish_seen_subcommand_from $commands" -a canon -d 'Write a proof in canonical form'
complete -c $name -n "not __fish_seen_subcommand_from $commands" -a merge -d 'Join the paths of two proofs'
complete -c $name -n "not __fish_seen_subcommand_from $commands" -a prune -d 'Keep the path to the least Bitcoin height'
complete -c $name -n "not __fish_seen_subcommand_from $commands" -a verify -d 'Check a file by its proof and headers'
complete -c $name -n "not __fish_seen_subcommand_from $commands" -a stamp -d 'Make a proof of each file'
complete -c $name -n "not __fish_seen_subcommand_from $commands" -a upgrade -d 'Complete a proof at its calendars'
complete -c $name -n "not __fish_seen_subcommand_from $commands" -a sample -d 'Check an installation and its speed'
complete -c $name -n "not __fish_seen_subcommand_from $commands" -a chain -d 'Check a file of headers'
complete -c $name -n '__fish_seen_subcommand_from verify chain' -l from -x -d 'The height of the first header'
complete -c $name -n '__fish_seen_subcommand_from verify' -l litecoin -r -F -d 'Headers of Litecoin'
complete -c $name -n '__fish_seen_subcommand_from verify' -l litecoin-from -x -d 'The height of their first header'
complete -c $name -n '__fish_seen_subcommand_from stamp upgrade' -l calendars -x -d 'Addresses, with commas between them'
complete -c $name -n '__fish_seen_subcommand_from stamp' -l min -x -d 'How many calendars are to answer well'
complete -c $name -n '__fish_seen_subcommand_from chain' -l pins -r -F -d 'Block hashes that the headers are to have'
