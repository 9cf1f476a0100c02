" `:make` asks `jasonlook where` and then `jasonlook hints` about the project of the file: the file itself where it is a project, the one project beside
" it, or a source alone. Another command, such as the script of the repository, is taken from g:jasonlook_program.
if exists("current_compiler")
  finish
endif
let current_compiler = "jasonrun"
let s:cpo = &cpo
set cpo&vim

" A name with backticks would be a command for glob(). In :make one with <cWORD> would be replaced, and what stands behind a bar would be a command of Vim's;
" a ! means nothing there, and shellescape() puts a backslash before it.
let s:beside = glob(fnameescape(expand("%:p:h")) . "/*.mas2j", 0, 1)
let s:project = expand("%:e") !=# "mas2j" && len(s:beside) == 1 ? fnamemodify(s:beside[0], ":.") : "%"
let s:word = s:project ==# "%" ? "%:S" : escape(substitute(shellescape(s:project, 1), '\\!', '!', "g"), "|")
let s:program = get(g:, "jasonlook_program", "jasonlook")
let &l:makeprg = "(" . s:program . " where " . s:word . " && " . s:program . " hints " . s:word . ")"

" FILE:LINE:COL: TEXT leads to a place: errors, and hints as information, each with the lines `= ..` below it. A refusal that `jasonrun` writes counts
" clauses or bytes, which Vim can't: it leads to the file, and shows PLACE WORD.
let &l:errorformat = '%E%f:%l:%c: error: %m,%I%f:%l:%c: hint: %m,%C%*[ ]= %m,%-C%*[ ]%*[0-9] | %.%#,%-C%*[ ]|%.%#'
      \ . ',%-Gjasonrun: %.%#,%f:%l:%c: %m,refused %f %m,missing %f,%+Gno %.%#,%+Glimit %.%#,%-Gno,%-Gyes,%-G%*[0-9] file%.%#,%-G%*[0-9] hint%.%#'

let &cpo = s:cpo
unlet s:cpo s:beside s:project s:word s:program
