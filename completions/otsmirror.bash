# Completion of the words of otsmirror, of Gahopiki, for bash.

_otsmirror() {
    local word=${COMP_WORDS[COMP_CWORD]}
    COMPREPLY=()
    case $COMP_CWORD:$word in
    1:*) mapfile -t COMPREPLY < <(compgen -f -- "$word") ;;
    *:-*) mapfile -t COMPREPLY < <(compgen -W '--rounds' -- "$word") ;;
    esac
}
complete -o filenames -F _otsmirror otsmirror
