# Completion of lex for bash: the flags of the form that the words begin, and files. scripts/install.sh writes the program's name into the
# last line.

_lex() {
    local current=$2 previous=$3 word flags='-t -n -v -b -i -X -w -o --scan-spec --scan-table'
    COMPREPLY=()
    for word in "${COMP_WORDS[@]:1:COMP_CWORD-1}"; do
        case $word in
            --scan-spec) flags='-i -X -w' ;;
            --scan-table | --) flags='' ;;
            -*) ;;
        esac
    done
    if [[ $current == -* && $previous != -o ]]; then
        mapfile -t COMPREPLY < <(compgen -W "$flags" -- "$current")
    fi
}

complete -o default -F _lex lex
