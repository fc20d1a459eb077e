" What vim shows of a source by ALE, as JSON: its diagnostics.
" The environment names the program, the source and the file that is written.
set nocompatible noswapfile hidden
set runtimepath+=/usr/share/vim-scripts/vim-ale,/usr/share/vim/vimfiles/pack/dist-bundle/opt/ale
filetype plugin on
silent! packadd ale
if !exists(':ALELint')
  call writefile([json_encode({'missing': 'ALE'})], $TARGET)
  qall!
endif
let g:ale_linters_explicit = 1
let g:ale_lint_on_enter = 0
let g:ale_lint_delay = 0

function! Root(buffer) abort
  return getcwd()
endfunction

autocmd BufRead,BufNewFile *.mms set filetype=mmixal
execute 'edit' fnameescape($SOURCE)
call ale#linter#Define('mmixal', {'name': 'mmixview', 'lsp': 'stdio', 'executable': $MMIXVIEW, 'command': '%e lsp', 'project_root': function('Root')})
let b:ale_linters = ['mmixview']
ALELint
let s:turns = 0
while s:turns < 100 && empty(ale#engine#GetLoclist(bufnr('')))
  sleep 50m
  let s:turns += 1
endwhile
let s:told = map(copy(ale#engine#GetLoclist(bufnr(''))), '{"line": v:val.lnum - 1, "text": v:val.text}')
call writefile([json_encode({'diagnostics': s:told})], $TARGET)
qall!
