# Completion for bash: `source completions/chart.bash`, or `make install`.

_chart() {
    local word=${COMP_WORDS[COMP_CWORD]} before=${COMP_WORDS[COMP_CWORD - 1]}
    COMPREPLY=()
    # a report comes from standard input
    case $before in
        --agents | --turns) ;;
        "<")
            compopt -o filenames 2>/dev/null
            mapfile -t COMPREPLY < <(compgen -f -- "$word")
            ;;
        *) COMPREPLY=($(compgen -W "--all --page --agents --turns --help --version" -- "$word")) ;;
    esac
}

complete -F _chart chart
