# Completion of amishell for bash; written by scripts/options.
_amishell() {
    local word=${COMP_WORDS[COMP_CWORD]} before=${COMP_WORDS[COMP_CWORD - 1]}
    COMPREPLY=()
    case $before in
        --hosts) mapfile -t COMPREPLY < <(compgen -f -- "$word"); return ;;
        --turns) :; return ;;
    esac
    if [[ $word == -* ]]; then
        case ${COMP_WORDS[1]} in
            run) mapfile -t COMPREPLY < <(compgen -W '--hosts --turns --full --trace --help' -- "$word") ;;
            replay) mapfile -t COMPREPLY < <(compgen -W '--trace --help' -- "$word") ;;
            *) mapfile -t COMPREPLY < <(compgen -W '--help --version' -- "$word") ;;
        esac
    elif ((COMP_CWORD == 1)); then
        mapfile -t COMPREPLY < <(compgen -W 'run replay help' -- "$word")
    else
        mapfile -t COMPREPLY < <(compgen -f -- "$word")
    fi
}
complete -o filenames -F _amishell amishell
