" Decks of snomon, and programs in SNOBOL4.
autocmd BufRead,BufNewFile *.deck,*.cards,*.job setfiletype snomon
autocmd BufRead,BufNewFile *.sno setfiletype snomon
