" Faults, meaning and names of MMIXAL in Vim by ALE, which asks `mmixview lsp`.
" :ALEHover shows what is under the cursor, :ALEGoToDefinition goes to the label, :ALEFindReferences lists the uses of a name,
" and :ALERename changes it.
function! s:Root(buffer) abort
  return fnamemodify(bufname(a:buffer), ':p:h')
endfunction

call ale#linter#Define('mmixal', {
\   'name': 'mmixview',
\   'lsp': 'stdio',
\   'executable': 'mmixview',
\   'command': '%e lsp',
\   'project_root': function('s:Root'),
\})
