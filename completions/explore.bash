# Completion for bash: `source completions/explore.bash`, or `make install`.

_explore() {
    local word=${COMP_WORDS[COMP_CWORD]} before=${COMP_WORDS[COMP_CWORD - 1]}
    # bash takes `--level=say` apart at the `=`
    [[ $word == "=" ]] && word=
    [[ $before == "=" ]] && before=${COMP_WORDS[COMP_CWORD - 2]}
    COMPREPLY=()
    case $before in
        --level) COMPREPLY=($(compgen -W "ends say acts" -- "$word")) && return ;;
        --depth | --tries | --states | --never | --always) return ;;
    esac
    if [[ $word == -* ]]; then
        COMPREPLY=($(compgen -W "--level --depth --tries --states --never --always --progress --help --version" -- "$word"))
        return
    fi
    compopt -o filenames 2>/dev/null
    mapfile -t COMPREPLY < <(compgen -d -- "$word"; compgen -f -X '!*.mas2j' -- "$word"; compgen -f -X '!*.asl' -- "$word")
}

complete -F _explore explore
