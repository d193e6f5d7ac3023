# Completion of the words of ots, of Gahopiki, for bash.
#
# It is put as gahopiki-ots, and a link ots leads to it where the program of that name is ours. It completes for the command
# whose name it was read under, so that the words of another project's ots stay that project's.

_gahopiki_ots() {
    local word=${COMP_WORDS[COMP_CWORD]} before=${COMP_WORDS[COMP_CWORD - 1]}
    local command=${COMP_WORDS[1]} options=
    COMPREPLY=()
    if [ "$COMP_CWORD" -eq 1 ]; then
        mapfile -t COMPREPLY < <(compgen -W 'info canon merge prune verify stamp upgrade sample chain' -- "$word")
        return
    fi
    case $before in
    --from | --litecoin-from | --min | --calendars) return ;;
    esac
    case $command in
    verify) options='--from --litecoin --litecoin-from' ;;
    stamp) options='--calendars --min' ;;
    upgrade) options='--calendars' ;;
    chain) options='--from --pins' ;;
    sample) return ;;
    esac
    case $word in
    -*) mapfile -t COMPREPLY < <(compgen -W "$options" -- "$word") ;;
    *) mapfile -t COMPREPLY < <(compgen -f -- "$word") ;;
    esac
}
complete -o filenames -F _gahopiki_ots "$(basename "${BASH_SOURCE[0]}" .bash)"
