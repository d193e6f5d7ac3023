# Completion of the words of otsarchive, of Gahopiki, for bash.

_otsarchive() {
    local word=${COMP_WORDS[COMP_CWORD]} before=${COMP_WORDS[COMP_CWORD - 1]}
    local command=${COMP_WORDS[1]} options=
    COMPREPLY=()
    if [ "$COMP_CWORD" -eq 1 ]; then
        mapfile -t COMPREPLY < <(compgen -W 'draft ask take' -- "$word")
        return
    fi
    case $before in
    --calendars | --min) return ;;
    --into)
        mapfile -t COMPREPLY < <(compgen -d -- "$word")
        return
        ;;
    esac
    case $command in
    draft) options='--calendars --sums' ;;
    ask) options='--calendars --all --sums' ;;
    take) options='--min --into --sums' ;;
    esac
    case $word in
    -*) mapfile -t COMPREPLY < <(compgen -W "$options" -- "$word") ;;
    *) mapfile -t COMPREPLY < <(compgen -f -- "$word") ;;
    esac
}
complete -o filenames -F _otsarchive otsarchive
