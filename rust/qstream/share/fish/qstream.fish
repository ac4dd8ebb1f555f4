# Completion of qstream's words for fish. It lies in a folder of $fish_complete_path by this name.

set -l commands frames play udp random show help
complete -c qstream -n "not __fish_seen_subcommand_from $commands" -f
complete -c qstream -n "not __fish_seen_subcommand_from $commands" -a frames -d 'shows the frames of a payload'
complete -c qstream -n "not __fish_seen_subcommand_from $commands" -a play -d 'plays a script'
complete -c qstream -n "not __fish_seen_subcommand_from $commands" -a udp -d 'the same, with packets sent over UDP'
complete -c qstream -n "not __fish_seen_subcommand_from $commands" -a random -d 'writes a script of random events'
complete -c qstream -n "not __fish_seen_subcommand_from $commands" -a show -d 'draws the run of play'
complete -c qstream -n "not __fish_seen_subcommand_from $commands" -a help -d 'tells the usage of a command'
complete -c qstream -n "not __fish_seen_subcommand_from $commands" -l version -d 'tells the usage and the version'
complete -c qstream -l help -d 'tells the usage'
complete -c qstream -n '__fish_seen_subcommand_from play show' -l grant -x -d 'streams of each direction that an endpoint grants at first'
complete -c qstream -n '__fish_seen_subcommand_from play show' -l lifetime -x -d 'and in all'
complete -c qstream -n '__fish_seen_subcommand_from play show' -l drain -d 'goes on until both endpoints are at rest'
complete -c qstream -n '__fish_seen_subcommand_from play udp' -l qlog -r -d 'writes traces'
complete -c qstream -n '__fish_seen_subcommand_from frames random' -f
