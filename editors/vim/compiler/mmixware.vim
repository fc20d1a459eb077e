" Vim compiler file
" Compiler:     mmixview check, which shows all faults of a source in MMIXAL
" License:      MIT (a part of mmixware)

if exists("current_compiler")
  finish
endif
let current_compiler = "mmixware"

let s:cpo_save = &cpo
set cpo&vim

" Each fault and each warning is a line, in the form of the GNU coding standards.
CompilerSet makeprg=mmixview\ check\ --gnu\ %:S
CompilerSet errorformat=%f:%l:%c:\ %trror:\ %n\ %m,%f:%l:\ %trror:\ %n\ %m,%f:%l:%c:\ %tarning:\ %n\ %m,%-G%.%#

let &cpo = s:cpo_save
unlet s:cpo_save
