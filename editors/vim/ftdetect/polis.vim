autocmd BufRead,BufNewFile *.net setfiletype polisnet
autocmd BufRead,BufNewFile *.trc setfiletype polistrace
autocmd BufRead,BufNewFile *.jnl setfiletype polisjournal
