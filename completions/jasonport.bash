# Completion for bash: `source completions/jasonport.bash`, or `make install`.

_jasonport() {
    local word=${COMP_WORDS[COMP_CWORD]} before=${COMP_WORDS[COMP_CWORD - 1]}
    # bash takes `--turn=100` apart at the `=`
    [[ $before == "=" ]] && before=${COMP_WORDS[COMP_CWORD - 2]}
    COMPREPLY=()
    case $before in
        --turn) return ;;
        -o)
            compopt -o filenames 2>/dev/null
            mapfile -t COMPREPLY < <(compgen -d -- "$word")
            return
            ;;
    esac
    if [[ $word == -* ]]; then
        COMPREPLY=($(compgen -W "-o --list --turn --help --version" -- "$word"))
        return
    fi
    compopt -o filenames 2>/dev/null
    mapfile -t COMPREPLY < <(compgen -d -- "$word"; for end in mas2j jcm asl; do compgen -f -X "!*.$end" -- "$word"; done)
}

complete -F _jasonport jasonport
