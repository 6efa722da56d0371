autocmd BufRead,BufNewFile *.safl setfiletype safl
