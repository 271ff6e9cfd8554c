" CAN databases in Vector's DBC format.
autocmd BufNewFile,BufRead *.dbc setfiletype dbc
