# Completions of parblock for bash: source this file.
_parblock() {
    local word=${COMP_WORDS[COMP_CWORD]} before=${COMP_WORDS[COMP_CWORD - 1]}
    if [ "$COMP_CWORD" -eq 1 ]; then
        mapfile -t COMPREPLY < <(compgen -W "run graph soak" -- "$word")
    elif [ "$before" = --workers ]; then
        mapfile -t COMPREPLY < <(compgen -W "1 2 3 4 5 6 7 8 9 10 11 12 13 14 15 16" -- "$word")
    elif [ "${COMP_WORDS[1]}" = run ]; then
        mapfile -t COMPREPLY < <(compgen -W "--workers --trace --evidence" -- "$word")
    elif [ "${COMP_WORDS[1]}" = soak ]; then
        mapfile -t COMPREPLY < <(compgen -W "--seed --txns --workers" -- "$word")
    fi
}
complete -o default -F _parblock parblock ./parblock
