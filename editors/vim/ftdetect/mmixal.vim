" files of MMIXAL; Vim by itself takes them for make or for a language of another name
autocmd BufNewFile,BufRead *.mms set filetype=mmixal
