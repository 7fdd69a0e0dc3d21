# Completion of nvmed(1) for bash.
_nvmed() {
    local now=${COMP_WORDS[COMP_CWORD]}
    COMPREPLY=()
    if ((COMP_CWORD == 1)); then
        mapfile -t COMPREPLY < <(compgen -W 'once replay run decode' -- "$now")
    elif ((COMP_CWORD == 2)) && [[ ${COMP_WORDS[1]} == decode ]]; then
        mapfile -t COMPREPLY < <(compgen -W 'sqe cqe' -- "$now")
    fi
}
complete -F _nvmed nvmed
