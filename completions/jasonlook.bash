# Completion for bash: `source completions/jasonlook.bash`, or `make install`.

_jasonlook() {
    local word=${COMP_WORDS[COMP_CWORD]}
    COMPREPLY=()
    if ((COMP_CWORD == 1)); then
        COMPREPLY=($(compgen -W "where hints messages mind drops page --help --version" -- "$word"))
        return
    fi
    case ${COMP_WORDS[1]} in
        where|hints)
            compopt -o filenames 2>/dev/null
            mapfile -t COMPREPLY < <(compgen -d -- "$word"; compgen -f -X '!*.mas2j' -- "$word"; compgen -f -X '!*.asl' -- "$word")
            ;;
        messages)
            if [[ $word == -* ]]; then
                COMPREPLY=($(compgen -W "- --csv" -- "$word"))
            else
                compopt -o filenames 2>/dev/null
                mapfile -t COMPREPLY < <(compgen -f -- "$word")
            fi
            ;;
        drops)
            if [[ $word == -* ]]; then
                COMPREPLY=($(compgen -W "- --unhandled" -- "$word"))
            else
                compopt -o filenames 2>/dev/null
                mapfile -t COMPREPLY < <(compgen -f -- "$word")
            fi
            ;;
        mind|page)
            compopt -o filenames 2>/dev/null
            mapfile -t COMPREPLY < <(compgen -f -- "$word")
            ;;
    esac
}

complete -F _jasonlook jasonlook
