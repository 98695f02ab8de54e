autocmd BufRead,BufNewFile *.lolli setfiletype lolli
