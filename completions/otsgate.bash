# Completion of the words of otsgate, of Gahopiki, for bash.

_otsgate() {
    local word=${COMP_WORDS[COMP_CWORD]}
    COMPREPLY=()
    case $word in
    -*) mapfile -t COMPREPLY < <(compgen -W '--calendars --min --port --round --accept' -- "$word") ;;
    esac
}
complete -F _otsgate otsgate
