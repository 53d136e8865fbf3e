autocmd BufNewFile,BufRead *.csdn setfiletype csdn
