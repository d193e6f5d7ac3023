# Completion of the words of otsmirror, of Gahopiki, for fish.

complete -c otsmirror -l rounds -x -d 'How many rounds are made at most'
