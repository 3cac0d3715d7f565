autocmd BufNewFile,BufRead *.qlp setfiletype qlp
autocmd BufNewFile,BufRead *.cert setfiletype qyascert
