# Completion for fish: `make install`, or this file in ~/.config/fish/completions.

# projects, sources and folders
function __explore_projects
    begin
        __fish_complete_suffix .mas2j
        __fish_complete_suffix .asl
    end | string match -r '^(?:[^\t]*/|[^\t]*\.(?:mas2j|asl))(?:\t.*)?$'
end

complete -c explore -f
complete -c explore -a '(__explore_projects)'
complete -c explore -l level -x -a 'ends say acts' -d 'what an outcome shows of each agent (say)'
complete -c explore -l depth -x -d 'rules that a search is deep, 1 to 10000 (500)'
complete -c explore -l tries -x -d 'beliefs and rules that a search tries, 1 to 10000000 (100000)'
complete -c explore -l states -x -d 'states that are followed, 1 to 1000000 (1000000)'
complete -c explore -l never -x -d 'whether no outcome has this line'
complete -c explore -l always -x -d 'whether each outcome has this line'
complete -c explore -l progress -d 'how far the search is, each second'
complete -c explore -l help -d 'the options'
complete -c explore -l version -d 'the version'
