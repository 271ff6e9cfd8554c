# Completion of the tools around candesk for fish: the options that a tool's own help lists, and files.
for tool in decode-dask decode-many diff format lsp page plot shell stats table
    complete -c candesk-$tool -n 'string match -q -- "-*" (commandline -ct)' \
        -a "(candesk-$tool --help 2>/dev/null | string match -ar -- '--[a-z][a-z-]*' | sort -u)"
end
