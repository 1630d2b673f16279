autocmd BufNewFile,BufRead *.val setfiletype val
autocmd BufNewFile,BufRead * if getline(1) =~# '^dataflow \d\+ \d\+$' | set filetype=dataflow | endif
