# Completes the arguments of mp4inspect in bash.

_mp4inspect() {
    local word=${COMP_WORDS[COMP_CWORD]} command=${COMP_WORDS[1]} words
    case ${COMP_WORDS[COMP_CWORD - 1]} in
        --rows | --track | --field) return ;;
        --color) mapfile -t COMPREPLY < <(compgen -W "always never auto" -- "$word"); return ;;
    esac
    case $command in
        info) words="--json --recursive --help" ;;
        check) words="--json --strict --media --recursive --help" ;;
        get) words="--json --raw --content --field --color --help" ;;
        diff) words="--offsets --json --help" ;;
        samples) words="--track --json --csv --beyond --seconds --edits --sync --segments --help" ;;
        help) words="info check samples get diff" ;;
        *) words="--json --all --rows --wide --color --recursive --help --version" ;;
    esac
    ((COMP_CWORD > 1)) || words="info check samples get diff help $words"
    mapfile -t COMPREPLY < <(
        compgen -W "$words" -- "$word"
        [[ $word == -* || ( $COMP_CWORD -gt 1 && $command == help ) ]] || compgen -f -- "$word"
    )
}

complete -o filenames -F _mp4inspect mp4inspect
