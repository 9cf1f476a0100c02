# Completion for fish: `make install`, or this file in ~/.config/fish/completions.

function __jasonlook_first
    test (count (commandline -opc)) -eq 1
end

# whether this is the command
function __jasonlook_in
    set -l words (commandline -opc)
    test (count $words) -gt 1; and test $words[2] = $argv[1]
end

# projects, sources and folders
function __jasonlook_projects
    begin
        __fish_complete_suffix .mas2j
        __fish_complete_suffix .asl
    end | string match -r '^(?:[^\t]*/|[^\t]*\.(?:mas2j|asl))(?:\t.*)?$'
end

complete -c jasonlook -f
complete -c jasonlook -n __jasonlook_first -a where -d 'what is refused, with line and column'
complete -c jasonlook -n __jasonlook_first -a hints -d 'what is read and looks wrong'
complete -c jasonlook -n __jasonlook_first -a messages -d 'who sent what to whom, and when it was taken'
complete -c jasonlook -n __jasonlook_first -a mind -d 'what an agent has in mind after so many turns'
complete -c jasonlook -n __jasonlook_first -a drops -d 'what was dropped, has failed or is spent, and on which stack'
complete -c jasonlook -n __jasonlook_first -a page -d 'the run as a page, with what changed in minds'
complete -c jasonlook -n __jasonlook_first -l help -d 'the commands'
complete -c jasonlook -n __jasonlook_first -l version -d 'the version'
complete -c jasonlook -n '__jasonlook_in where' -a '(__jasonlook_projects)'
complete -c jasonlook -n '__jasonlook_in hints' -a '(__jasonlook_projects)'
complete -c jasonlook -n '__jasonlook_in messages' -F
complete -c jasonlook -n '__jasonlook_in messages' -l csv -d 'a table for a spreadsheet'
complete -c jasonlook -n '__jasonlook_in mind' -F
complete -c jasonlook -n '__jasonlook_in drops' -F
complete -c jasonlook -n '__jasonlook_in drops' -l unhandled -d 'what no failure plan takes up'
complete -c jasonlook -n '__jasonlook_in page' -F
