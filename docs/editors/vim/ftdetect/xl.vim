autocmd BufNewFile,BufRead *.xl setfiletype xl
