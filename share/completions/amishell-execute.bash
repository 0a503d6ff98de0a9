# Completion of amishell-execute for bash; written by scripts/options.
_amishell_execute() {
    local word=${COMP_WORDS[COMP_CWORD]} before=${COMP_WORDS[COMP_CWORD - 1]}
    COMPREPLY=()
    case $before in
        --hosts | --bring | --config) mapfile -t COMPREPLY < <(compgen -f -- "$word"); return ;;
        --host) mapfile -t COMPREPLY < <(compgen -c -- "$word"); return ;;
        --take | --type | --turns | --seconds | --error | --ok-below) :; return ;;
        --share) mapfile -t COMPREPLY < <(compgen -d -- "$word"); return ;;
        --answer) mapfile -t COMPREPLY < <(compgen -W 'no' -- "$word"); return ;;
    esac
    if [[ $word == -* ]]; then
        mapfile -t COMPREPLY < <(compgen -W '--core --hosts --host --common --bring --take --type --share --all --part --dry --quote --strike --check --ascii-marks --lenient --strict --answer --turns --seconds --error --ok-below --quiet --trace --config --no-config --help --version' -- "$word")
    else
        mapfile -t COMPREPLY < <(compgen -f -- "$word")
    fi
}
complete -o filenames -F _amishell_execute amishell-execute
