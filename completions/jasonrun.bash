# Completion for bash: `source completions/jasonrun.bash`, or `make install`. It serves `jasonrun` and `./jasonrun`.

_jasonrun() {
    local word=${COMP_WORDS[COMP_CWORD]} before=${COMP_WORDS[COMP_CWORD - 1]} at number=0 names options
    # bash takes `--level=say` apart at the `=`
    [[ $word == "=" ]] && word=
    [[ $before == "=" ]] && before=${COMP_WORDS[COMP_CWORD - 2]}
    COMPREPLY=()
    if ((COMP_CWORD == 1)); then
        COMPREPLY=($(compgen -W "run replay check demo renew record resume sites lint help --help --version" -- "$word"))
        return
    fi
    # what its names are, in their order, and its options
    case ${COMP_WORDS[1]} in
        run) names="agents" options="--cycles --lead --depth --tries --level --workers --pool" ;;
        replay) names="agents file" options="--cycles --lead --depth --tries --level" ;;
        check) names="agents file" options="" ;;
        demo) names="number" options="--workers" ;;
        renew) names="agents file" options="" ;;
        record) names="agents file" options="--cycles --lead --depth --tries --level --workers" ;;
        resume) names="agents file" options="--cycles --lead --depth --tries --level --workers" ;;
        sites) names="agents agents" options="--cycles --lead --depth --tries --level --workers" ;;
        lint) names="agents" options="" ;;
        help) names="command" options="" ;;
        *) return ;;
    esac
    case ${COMP_WORDS[1]}$before in
        sites--level) COMPREPLY=($(compgen -W "acts rules" -- "$word")) && return ;;
        *--level) COMPREPLY=($(compgen -W "say acts rules" -- "$word")) && return ;;
        *--pool) COMPREPLY=($(compgen -W "ready steal" -- "$word")) && return ;;
        *--cycles | *--lead | *--depth | *--tries | *--workers) return ;;
    esac
    if [[ $word == -* ]]; then
        COMPREPLY=($(compgen -W "$options" -- "$word"))
        return
    fi
    # how many names stand before this word: an option, its `=` and its value are none
    for ((at = 2; at < COMP_CWORD; at++)); do
        case ${COMP_WORDS[at]} in
            --*) [[ ${COMP_WORDS[at + 1]} == "=" ]] && ((at++)); ((at++)) ;;
            *) ((number++)) ;;
        esac
    done
    read -ra names <<<"$names"
    case ${names[number]-} in
        agents)
            compopt -o filenames 2>/dev/null
            mapfile -t COMPREPLY < <(compgen -d -- "$word"; compgen -f -X '!*.mas2j' -- "$word"; compgen -f -X '!*.asl' -- "$word")
            ;;
        file)
            compopt -o filenames 2>/dev/null
            mapfile -t COMPREPLY < <(compgen -f -- "$word")
            ;;
        command) COMPREPLY=($(compgen -W "run replay check demo renew record resume sites lint" -- "$word")) ;;
        "") COMPREPLY=($(compgen -W "$options" -- "$word")) ;;
    esac
}

complete -F _jasonrun jasonrun ./jasonrun
