# Completion of lexlook for bash: subcommands, their flags, and files.

_lexlook() {
    COMPREPLY=()
    if ((COMP_CWORD == 1)); then
        mapfile -t COMPREPLY < <(compgen -W 'picture same lines words overlaps trace utf8 check header count cover suite --help --version' -- "$2")
    elif [[ $2 == -* && ${COMP_WORDS[1]} != utf8 ]]; then
        local flags='-i -X'
        [[ ${COMP_WORDS[1]} == check ]] && flags+=' -s --json'
        [[ ${COMP_WORDS[1]} == header ]] && flags+=' --rust'
        [[ ${COMP_WORDS[1]} == trace ]] && flags+=' --offsets'
        [[ ${COMP_WORDS[1]} == count ]] && flags+=' --json'
        [[ ${COMP_WORDS[1]} == suite ]] && flags+=' -o'
        mapfile -t COMPREPLY < <(compgen -W "$flags" -- "$2")
    fi
}

complete -o default -F _lexlook lexlook
