# Completion for fish: `make install`, or this file in ~/.config/fish/completions.

complete -c jasonport -f
complete -c jasonport -a '(__fish_complete_suffix .mas2j; __fish_complete_suffix .jcm; __fish_complete_suffix .asl)'
complete -c jasonport -s o -x -a '(__fish_complete_directories)' -d 'the folder that is written'
complete -c jasonport -l list -d 'tell notes alone'
complete -c jasonport -l turn -x -d 'milliseconds of a .wait that are one turn, 1 to 1000000 (100)'
complete -c jasonport -l help -d 'the options'
complete -c jasonport -l version -d 'the version'
