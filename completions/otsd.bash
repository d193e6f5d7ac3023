# Completion of the words of otsd, of Gahopiki, for bash.

_otsd() {
    local word=${COMP_WORDS[COMP_CWORD]} before=${COMP_WORDS[COMP_CWORD - 1]}
    local command=${COMP_WORDS[2]-} options=
    COMPREPLY=()
    if [ "$COMP_CWORD" -eq 2 ]; then
        mapfile -t COMPREPLY < <(compgen -W 'serve batch tip anchor list migrate' -- "$word")
        return
    fi
    case $before in
    --uri | --port | --workers | --accept | --height) return ;;
    esac
    case $command in
    serve) options='--key --uri --port --workers --accept' ;;
    batch) options='--key --uri' ;;
    anchor) options='--height' ;;
    esac
    case $word in
    -*) mapfile -t COMPREPLY < <(compgen -W "$options" -- "$word") ;;
    *) mapfile -t COMPREPLY < <(compgen -f -- "$word") ;;
    esac
}
complete -o filenames -F _otsd otsd
