# Completion of the words of otsd, of Gahopiki, for fish.

set -l commands serve batch tip anchor list migrate
complete -c otsd -n "not __fish_seen_subcommand_from $commands" -a serve -d 'Answer connections'
complete -c otsd -n "not __fish_seen_subcommand_from $commands" -a batch -d 'Put the digests of a file under one commitment'
complete -c otsd -n "not __fish_seen_subcommand_from $commands" -a tip -d 'Show the root for the next transaction'
complete -c otsd -n "not __fish_seen_subcommand_from $commands" -a anchor -d 'Store the way to a block'
complete -c otsd -n "not __fish_seen_subcommand_from $commands" -a list -d 'Show each record'
complete -c otsd -n "not __fish_seen_subcommand_from $commands" -a migrate -d 'Add the records of a journal of version 1'
complete -c otsd -n '__fish_seen_subcommand_from serve batch' -l key -r -F -d 'The file of the key'
complete -c otsd -n '__fish_seen_subcommand_from serve batch' -l uri -x -d 'The address of the calendar'
complete -c otsd -n '__fish_seen_subcommand_from serve' -l port -x -d 'The port to listen on'
complete -c otsd -n '__fish_seen_subcommand_from serve' -l workers -x -d 'How many connections are served at once'
complete -c otsd -n '__fish_seen_subcommand_from serve' -l accept -x -d 'After how many connections it ends'
complete -c otsd -n '__fish_seen_subcommand_from anchor' -l height -x -d 'The height of the block'
