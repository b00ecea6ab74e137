# Completion of room-desk for fish: put this file into ~/.config/fish/completions.
set -l commands render check show picture new compile convert help
complete -c room-desk -n "not __fish_seen_subcommand_from $commands" -f -a "$commands"
complete -c room-desk -n "__fish_seen_subcommand_from render show picture new compile" -s o -l output -r -d "where to"
complete -c room-desk -n "__fish_seen_subcommand_from render" -s f -l format -x -a "wav wav16 raw text" -d "form of the output"
complete -c room-desk -n "__fish_seen_subcommand_from render check show picture compile" -l visitor -r -d "a visitor's recording"
complete -c room-desk -n "__fish_seen_subcommand_from render check show picture compile" -l any-rate -d "take recordings of another rate"
complete -c room-desk -n "__fish_seen_subcommand_from render check compile" -s q -l quiet -d "say less"
complete -c room-desk -n "__fish_seen_subcommand_from check" -l silent -x -d "a track that must be proved silent"
complete -c room-desk -n "__fish_seen_subcommand_from show" -l sheet -d "as a show sheet"
complete -c room-desk -n "__fish_seen_subcommand_from compile" -s s -l samples -r -d "where the recordings go"
complete -c room-desk -n "__fish_seen_subcommand_from compile" -l visitor-samples -r -d "where the visitor's recordings go"
complete -c room-desk -l color -x -a "auto always never" -d colours
complete -c room-desk -s h -l help -d help
