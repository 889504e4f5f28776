autocmd BufRead,BufNewFile *.wsm setfiletype wsm
