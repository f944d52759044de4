# Completion of rohc-gateway in fish. tools/make_completion.py writes this from the help of rohc-gateway.
set -l commands run check
complete -c rohc-gateway -f
complete -c rohc-gateway -n "not __fish_seen_subcommand_from $commands" -a run -d 'Decompress datagrams until rohctl stop'
complete -c rohc-gateway -n "not __fish_seen_subcommand_from $commands" -a check -d 'Check the configuration and exit'
complete -c rohc-gateway -F -n "__fish_seen_subcommand_from run check"
complete -c rohc-gateway -s h -l help -n "not __fish_seen_subcommand_from $commands" -d 'Print help'
complete -c rohc-gateway -s V -l version -n "not __fish_seen_subcommand_from $commands" -d 'Print version'
complete -c rohc-gateway -l links -r -F -n "__fish_seen_subcommand_from run check" -d 'Links file (man rohc-links)'
complete -c rohc-gateway -l port -x -n "__fish_seen_subcommand_from run check" -d 'UDP port for datagrams'
complete -c rohc-gateway -l timed-port -x -n "__fish_seen_subcommand_from run check" -d 'UDP port for datagrams with their arrival time'
complete -c rohc-gateway -l state -r -F -n "__fish_seen_subcommand_from run check" -d 'File for saved calls'
complete -c rohc-gateway -l save-seconds -x -n "__fish_seen_subcommand_from run check" -d 'Seconds between two saves'
complete -c rohc-gateway -l control -r -F -n "__fish_seen_subcommand_from run check" -d 'Unix socket for rohctl'
complete -c rohc-gateway -l metrics-port -x -n "__fish_seen_subcommand_from run check" -d 'TCP port for metrics'
complete -c rohc-gateway -l log-format -x -a 'text json' -n "__fish_seen_subcommand_from run check" -d 'Format of log lines'
complete -c rohc-gateway -l fresh -n "__fish_seen_subcommand_from run" -d 'Start without the saved calls'
complete -c rohc-gateway -s h -l help -n "__fish_seen_subcommand_from run check" -d 'Print help'
