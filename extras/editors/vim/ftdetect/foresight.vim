" File types of foresight. Made by extras/editors/make.py.
autocmd BufNewFile,BufRead *.handlers,*.session,*.trace setfiletype foresight
autocmd BufNewFile,BufRead *.ranges setfiletype foresightranges
