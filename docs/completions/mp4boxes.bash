# Completes the arguments of mp4boxes in bash.
complete -W "list normal" mp4boxes
