" Sources, projects, worlds and reports of jasonrun.
autocmd BufNewFile,BufRead *.asl set filetype=agentspeak
autocmd BufNewFile,BufRead *.mas2j set filetype=agentproject
" other files end in .env too: it is a world where a project lies beside it
autocmd BufNewFile,BufRead ?*.env if !empty(glob(fnameescape(expand('<afile>:p:h')) . '/*.mas2j', 0, 1)) | set filetype=agentworld | endif
autocmd BufRead * if getline(1) =~# '^jasonrun \d\+$' | set filetype=agentreport | endif
