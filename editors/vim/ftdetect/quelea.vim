" Vim itself knows .ql as another language, so this sets the type and doesn't only propose it.
autocmd BufNewFile,BufRead *.ql set filetype=quelea
