# Completion for fish: `make install`, or this file in ~/.config/fish/completions.

set -l all run replay check demo renew record resume sites lint

function __jasonrun_first
    test (count (commandline -opc)) -eq 1
end

# whether the command is one of these
function __jasonrun_in
    set -l words (commandline -opc)
    test (count $words) -gt 1; and contains -- $words[2] $argv
end

# the same, and so many names stand behind it: an option and its value are none
function __jasonrun_name
    __jasonrun_in $argv[2..]; or return
    set -l words (commandline -opc)[3..]
    set -l names 0
    while set -q words[1]
        switch $words[1]
            case '--*=*'
            case '--*'
                set -e words[1]
            case '*'
                set names (math $names + 1)
        end
        set -e words[1]
    end
    test $names -eq $argv[1]
end

# projects, sources and folders
function __jasonrun_projects
    begin
        __fish_complete_suffix .mas2j
        __fish_complete_suffix .asl
    end | string match -r '^(?:[^\t]*/|[^\t]*\.(?:mas2j|asl))(?:\t.*)?$'
end

complete -c jasonrun -f
complete -c jasonrun -n __jasonrun_first -a run -d 'run a project, or one agent'
complete -c jasonrun -n __jasonrun_first -a replay -d 'run it along the order of turns in a file'
complete -c jasonrun -n __jasonrun_first -a check -d 'whether a file is the report of a run'
complete -c jasonrun -n __jasonrun_first -a demo -d 'run agents that add to one tally'
complete -c jasonrun -n __jasonrun_first -a renew -d 'write a report anew, in the form of now'
complete -c jasonrun -n __jasonrun_first -a record -d 'run it, and keep each turn in a file'
complete -c jasonrun -n __jasonrun_first -a resume -d 'go on from such a file'
complete -c jasonrun -n __jasonrun_first -a sites -d 'run two projects that send each other messages'
complete -c jasonrun -n __jasonrun_first -a lint -d 'the first goal that no plan covers'
complete -c jasonrun -n __jasonrun_first -a help -d 'a command and its options'
complete -c jasonrun -n __jasonrun_first -l help -d 'all commands'
complete -c jasonrun -n __jasonrun_first -l version -d 'version and commit'
complete -c jasonrun -n '__jasonrun_in help' -a "$all"

complete -c jasonrun -n '__jasonrun_name 0 run replay check renew record resume sites lint' -a '(__jasonrun_projects)'
complete -c jasonrun -n '__jasonrun_name 1 sites' -a '(__jasonrun_projects)'
complete -c jasonrun -n '__jasonrun_name 1 replay check renew record resume' -F
complete -c jasonrun -n '__jasonrun_in run replay record resume sites' -l cycles -x -d 'cycles of each agent, 1 to 1000000 (1000)'
complete -c jasonrun -n '__jasonrun_in run replay record resume sites' -l lead -x -d 'cycles that an agent may be ahead, 1 to 1000 (8)'
complete -c jasonrun -n '__jasonrun_in run replay record resume sites' -l depth -x -d 'rules that a search is deep, 1 to 10000 (500)'
complete -c jasonrun -n '__jasonrun_in run replay record resume sites' -l tries -x -d 'beliefs and rules that a search tries, 1 to 10000000 (100000)'
complete -c jasonrun -n '__jasonrun_in run replay record resume' -l level -x -a 'say acts rules' -d 'what a trace shows (acts)'
complete -c jasonrun -n '__jasonrun_in sites' -l level -x -a 'acts rules' -d 'what a trace shows (acts)'
complete -c jasonrun -n '__jasonrun_in run demo record resume' -l workers -x -d 'threads, 1 to 64 (4)'
complete -c jasonrun -n '__jasonrun_in sites' -l workers -x -d 'threads, 1 to 2 (2)'
complete -c jasonrun -n '__jasonrun_in run' -l pool -x -a 'ready steal' -d 'where an agent waits for a thread (ready)'
