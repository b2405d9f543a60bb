autocmd BufNewFile,BufRead *.gib setfiletype gib
