autocmd BufRead,BufNewFile *.balsa setfiletype balsa
