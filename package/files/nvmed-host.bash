# Completion of nvmed-host(1) for bash.
_nvmed_host() {
    local now=${COMP_WORDS[COMP_CWORD]} before=${COMP_WORDS[COMP_CWORD - 1]}
    COMPREPLY=()
    if [[ $now == -* ]]; then
        mapfile -t COMPREPLY < <(compgen -W '--statistics --version --help --json' -- "$now")
        return
    fi
    if ((COMP_CWORD == 1)); then
        mapfile -t COMPREPLY < <(compgen -W 'check ctl help' -- "$now")
    elif [[ ${COMP_WORDS[1]} == ctl && $before != --json ]] && ((COMP_CWORD > 2)); then
        mapfile -t COMPREPLY < <(compgen -W 'state figures top limit drain resume end' -- "$now")
        return
    elif [[ $before == help ]]; then
        return
    fi
    compopt -o filenames
    mapfile -t -O "${#COMPREPLY[@]}" COMPREPLY < <(compgen -f -- "$now")
}
complete -F _nvmed_host nvmed-host
