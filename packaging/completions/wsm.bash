# Completion of the words of wsm, for bash.
_wsm() {
    local word=${COMP_WORDS[COMP_CWORD]} command=${COMP_WORDS[1]}
    COMPREPLY=()
    if [ "$COMP_CWORD" -eq 1 ]; then
        mapfile -t COMPREPLY < <(compgen -W 'run compile migrate verify explain deal rows keep watermarks live help --help --version' -- "$word")
        return
    fi
    case $command:$word in
        help:*) mapfile -t COMPREPLY < <(compgen -W 'run compile migrate verify explain deal rows keep watermarks live' -- "$word") && return ;;
        run:-*) mapfile -t COMPREPLY < <(compgen -W '--program --from --metrics --keys --new-keys --most-keys --help' -- "$word") && return ;;
        verify:-*) mapfile -t COMPREPLY < <(compgen -W '--query --from --keys --help' -- "$word") && return ;;
        explain:-*) mapfile -t COMPREPLY < <(compgen -W '--json --query --help' -- "$word") && return ;;
        deal:-*) mapfile -t COMPREPLY < <(compgen -W '--keys-of --help' -- "$word") && return ;;
        keep:-*) mapfile -t COMPREPLY < <(compgen -W '--program --taken --most --help' -- "$word") && return ;;
        watermarks:-*) mapfile -t COMPREPLY < <(compgen -W '--program --agree --bound --step --forget --room --source --once --last --metrics --help' -- "$word") && return ;;
        live:-*) mapfile -t COMPREPLY < <(compgen -W '--program --from --keys --new-keys --most-keys --lost --health --patience --cut --position --help' -- "$word") && return ;;
        rows:-*) mapfile -t COMPREPLY < <(compgen -W '--program --help' -- "$word") && return ;;
        *:-*) mapfile -t COMPREPLY < <(compgen -W '--help' -- "$word") && return ;;
    esac
    compopt -o filenames
    mapfile -t COMPREPLY < <(compgen -f -- "$word")
}
complete -F _wsm wsm
