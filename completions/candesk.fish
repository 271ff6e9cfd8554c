# Completion of candesk for fish: commands, options, and files.
set -l commands check decode dump explain print session help

complete -c candesk -f
complete -c candesk -n "not __fish_seen_subcommand_from $commands" -s h -l help -d 'Print help'
complete -c candesk -n "not __fish_seen_subcommand_from $commands" -s V -l version -d 'Print version'
complete -c candesk -n "not __fish_seen_subcommand_from $commands" -a check -d 'Report problems in a database'
complete -c candesk -n "not __fish_seen_subcommand_from $commands" -a decode -d 'Decode a log of candump -L'
complete -c candesk -n "not __fish_seen_subcommand_from $commands" -a dump -d 'Draw the layout of each message'
complete -c candesk -n "not __fish_seen_subcommand_from $commands" -a explain -d 'Explain errors and problems in a database'
complete -c candesk -n "not __fish_seen_subcommand_from $commands" -a print -d 'Print a database as its canonical text'
complete -c candesk -n "not __fish_seen_subcommand_from $commands" -a session -d 'Edit a database and keep a log, by a script'
complete -c candesk -n "not __fish_seen_subcommand_from $commands" -a help -d 'The help of a command'
complete -c candesk -n "__fish_seen_subcommand_from help" -a 'check decode dump explain print session'
complete -c candesk -n "__fish_seen_subcommand_from check dump explain print decode session" -s h -l help -d 'Print help'
complete -c candesk -n "__fish_seen_subcommand_from check dump explain print decode session" \
    -a "(__fish_complete_suffix .dbc | string match -r '.*(?:\.dbc|/)(?:\t.*)?\$')"
complete -c candesk -n "__fish_seen_subcommand_from decode session" -l short -d 'Decode truncated frames as far as they go'
complete -c candesk -n "__fish_seen_subcommand_from decode" -l json -d 'Write a JSON object for each line'
complete -c candesk -n "__fish_seen_subcommand_from decode" -l csv -d 'Write a CSV row for each signal'
complete -c candesk -n "__fish_seen_subcommand_from check explain" -l json -d 'Write a JSON object for each problem'
complete -c candesk -n "__fish_seen_subcommand_from dump" -l json -d 'Write a JSON object for each message'
complete -c candesk -n "__fish_seen_subcommand_from dump" -l at -d 'Write a JSON object for each name'
complete -c candesk -n "__fish_seen_subcommand_from session" -l keep -x -d 'Keep only the last N lines'
