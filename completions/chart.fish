# Completion for fish: `make install`, or this file in ~/.config/fish/completions.

complete -c chart -f
complete -c chart -l all -d 'also the cycles without a line'
complete -c chart -l page -d 'a page in place of a picture'
complete -c chart -l agents -x -d 'the agents of these names alone, as ann,bob'
complete -c chart -l turns -x -d 'the cycles with one of these turns alone, as 30..90'
complete -c chart -l help -d 'the options'
complete -c chart -l version -d 'the version'
