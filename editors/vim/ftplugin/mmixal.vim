" Vim filetype plugin
" Language:     MMIXAL, the assembly language of MMIX
" License:      MIT (a part of mmixware)

if exists("b:did_ftplugin")
  finish
endif
let b:did_ftplugin = 1

let s:cpo_save = &cpo
set cpo&vim

" a comment of its own line begins with a byte that is no blank, letter or digit; columns are 8 apart
setlocal comments=b:%,b:*,b:# commentstring=%\ %s
setlocal iskeyword=@,48-57,_,58
setlocal noexpandtab tabstop=8 shiftwidth=8 softtabstop=0
compiler mmixware

let b:undo_ftplugin = "setlocal comments< commentstring< iskeyword< expandtab< tabstop< shiftwidth< softtabstop<"
      \ . " makeprg< errorformat<"

let &cpo = s:cpo_save
unlet s:cpo_save
