# Completes the arguments of mp4boxes in fish.
complete -c mp4boxes -f -n __fish_use_subcommand -a list -d "Print a line for each box"
complete -c mp4boxes -f -n __fish_use_subcommand -a normal -d "Write each box in its normal form"
