# Completion of the tools around candesk for bash: the options that a tool's own help lists, and files.
_candesk_tool() {
    local word=${COMP_WORDS[COMP_CWORD]} options
    COMPREPLY=()
    if [[ $word == -* ]]; then
        options=$("${COMP_WORDS[0]}" --help 2>/dev/null | grep -oE -- '--[a-z][a-z-]*' | sort -u)
        mapfile -t COMPREPLY < <(compgen -W "$options" -- "$word")
        return
    fi
    compopt -o filenames 2>/dev/null
    mapfile -t COMPREPLY < <(compgen -f -- "$word")
}
complete -F _candesk_tool candesk-decode-dask candesk-decode-many candesk-diff candesk-format candesk-lsp candesk-page \
    candesk-plot candesk-shell candesk-stats candesk-table
