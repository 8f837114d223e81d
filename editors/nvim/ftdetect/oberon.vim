autocmd BufNewFile,BufRead *.Mod set filetype=oberon
