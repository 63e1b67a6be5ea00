# Completions of airbook for bash: commands, and each command's options.

_airbook() {
    local word=${COMP_WORDS[COMP_CWORD]} options='--help'
    COMPREPLY=()
    if ((COMP_CWORD == 1)); then
        mapfile -t COMPREPLY < <(compgen -W 'toa book plan picture recover check run listen serve help --help --version' -- "$word")
        return
    fi
    case ${COMP_WORDS[1]} in
        book) options='--cap --gap --resume --save --notes --help' ;;
        plan) options='--cap --gap --notes --help' ;;
        picture) options='--from --help' ;;
        recover) options='--gateway --sql --help' ;;
        run) options='--workers --notes --help' ;;
        listen) options='--port --turns --workers --notes --help' ;;
        serve) options='--state --new --shadow --bind --help' ;;
        help) options='toa book plan picture recover check run listen serve help' ;;
    esac
    if [[ $word == -* || ${COMP_WORDS[1]} == help ]]; then
        mapfile -t COMPREPLY < <(compgen -W "$options" -- "$word")
    fi
}
complete -F _airbook airbook
