# Completion of valflow's words in bash: `source` this file, or put it under bash-completion's folder.
_valflow() {
    local commands="check eval compile go run trace replay verify migrate lockstep" files
    if [ "$COMP_CWORD" -eq 1 ]; then
        mapfile -t COMPREPLY < <(compgen -W "$commands" -- "${COMP_WORDS[1]}")
        return
    fi
    case "${COMP_WORDS[1]}" in
        check) files=1 ;;
        eval | verify | migrate | lockstep) files=2 ;;
        compile | run | trace | replay) files=3 ;;
        go) files=5 ;;
        *) files=0 ;;
    esac
    COMPREPLY=()
    if [ "$COMP_CWORD" -le $((files + 1)) ]; then
        mapfile -t COMPREPLY < <(compgen -f -- "${COMP_WORDS[COMP_CWORD]}")
    fi
}
complete -o filenames -F _valflow valflow
