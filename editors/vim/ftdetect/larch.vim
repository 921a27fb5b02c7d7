" Vim itself calls some of these files lsl and others larch, by their first lines.
autocmd BufNewFile,BufRead *.lsl set filetype=larch
autocmd BufNewFile,BufRead *.lp set filetype=larchlp
