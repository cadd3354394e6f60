# bash completion for aggregator(8)

_aggregator() {
    local word=${COMP_WORDS[COMP_CWORD]} before=${COMP_WORDS[COMP_CWORD - 1]}
    COMPREPLY=()
    if [ "$COMP_CWORD" -eq 1 ]; then
        COMPREPLY=($(compgen -W "listen check import replay help --help --version" -- "$word"))
        return
    fi
    case $before in
        --config | --admin-socket)
            compopt -o filenames 2> /dev/null
            COMPREPLY=($(compgen -f -- "$word"))
            return
            ;;
        --unknown-peers)
            COMPREPLY=($(compgen -W "refuse wait" -- "$word"))
            return
            ;;
        --name | --peers | --admin | --http | --http-host | --from)
            return
            ;;
    esac
    case ${COMP_WORDS[1]} in
        listen)
            COMPREPLY=($(compgen -W "--peers --admin --admin-socket --http --http-host --from --unknown-peers --config --help" -- "$word"))
            ;;
        check)
            compopt -o filenames 2> /dev/null
            COMPREPLY=($(compgen -W "--config --help" -- "$word") $(compgen -f -- "$word"))
            ;;
        import)
            compopt -o filenames 2> /dev/null
            COMPREPLY=($(compgen -W "--name --help" -- "$word") $(compgen -f -- "$word"))
            ;;
        replay)
            COMPREPLY=($(compgen -W "--help" -- "$word"))
            ;;
        help)
            COMPREPLY=($(compgen -W "listen check import replay" -- "$word"))
            ;;
    esac
}
complete -F _aggregator aggregator
