# Completion of the words of otsgate, of Gahopiki, for fish.

complete -c otsgate -f
complete -c otsgate -l calendars -x -d 'Addresses, with commas between them'
complete -c otsgate -l min -x -d 'How many calendars are to answer well'
complete -c otsgate -l port -x -d 'The port to listen on'
complete -c otsgate -l round -x -d 'How many clients a round has at most'
complete -c otsgate -l accept -x -d 'After how many connections it ends'
