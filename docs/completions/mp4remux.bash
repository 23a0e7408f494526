# Completes the arguments of mp4remux in bash.

_mp4remux() {
    local word=${COMP_WORDS[COMP_CWORD]} command=${COMP_WORDS[1]} words
    case ${COMP_WORDS[COMP_CWORD - 1]} in
        --duration | --remove | --set | --brand | --language | --rotate | --enable | --disable | --drop-track | --title | --tag | --from | --to) return ;;
    esac
    case $command in
        edit)
            words="--remove --insert --replace --set --brand --language --rotate --enable --disable --drop-track"
            words+=" --no-tags --title --tag --cover --help" ;;
        fragment) words="--duration --sidx --mfra --segments --help" ;;
        cut) words="--from --to --help" ;;
        help) words="faststart edit fragment defragment cut" ;;
        *) words="--help" ;;
    esac
    ((COMP_CWORD > 1)) || words="faststart edit fragment defragment cut help --help --version"
    mapfile -t COMPREPLY < <(
        compgen -W "$words" -- "$word"
        [[ $word == -* || $COMP_CWORD -eq 1 || $command == help ]] || compgen -f -- "$word"
    )
}

complete -o filenames -F _mp4remux mp4remux
