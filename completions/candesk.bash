# Completion of candesk for bash: commands, options, and files.
_candesk() {
    local word=${COMP_WORDS[COMP_CWORD]} before=${COMP_WORDS[COMP_CWORD - 1]} command=${COMP_WORDS[1]}
    local options=""
    COMPREPLY=()
    if [ "$COMP_CWORD" -eq 1 ]; then
        mapfile -t COMPREPLY < <(compgen -W "check decode dump explain print session help --help --version" -- "$word")
        return
    fi
    case $command in
        print) options="--help" ;;
        decode) options="--short --json --csv --help" ;;
        check | explain) options="--json --help" ;;
        dump) options="--json --at --help" ;;
        session) options="--short --keep --help" ;;
        help)
            mapfile -t COMPREPLY < <(compgen -W "check decode dump explain print session" -- "$word")
            return
            ;;
        *) return ;;
    esac
    if [ "$before" = --keep ]; then return; fi
    if [[ $word == -* ]]; then
        mapfile -t COMPREPLY < <(compgen -W "$options" -- "$word")
        return
    fi
    # databases, and folders on the way to them
    compopt -o filenames 2>/dev/null
    mapfile -t COMPREPLY < <(compgen -f -X '!*.dbc' -- "$word"; compgen -d -- "$word")
}
complete -F _candesk candesk
