# Completion of the words of otsarchive, of Gahopiki, for fish.

set -l commands draft ask take
complete -c otsarchive -f -n "not __fish_seen_subcommand_from $commands"
complete -c otsarchive -n "not __fish_seen_subcommand_from $commands" -a draft -d 'Make drafts of proofs of files'
complete -c otsarchive -n "not __fish_seen_subcommand_from $commands" -a ask -d 'Write down what calendars are to be asked'
complete -c otsarchive -n "not __fish_seen_subcommand_from $commands" -a take -d 'Complete proofs by a sheet of replies'
complete -c otsarchive -n '__fish_seen_subcommand_from draft ask' -l calendars -x -d 'URLs, with commas between them'
complete -c otsarchive -n '__fish_seen_subcommand_from ask' -l all -d 'Ask for proofs that are complete too'
complete -c otsarchive -n '__fish_seen_subcommand_from take' -l min -x -d 'How many calendars are to answer well'
complete -c otsarchive -n '__fish_seen_subcommand_from take' -l into -x -a '(__fish_complete_directories)' -d 'The folder of the proofs'
complete -c otsarchive -n "__fish_seen_subcommand_from $commands" -l sums -r -F -d 'A file of sha256sum with the names'
