" Scripts of tevents end in .te.
autocmd BufRead,BufNewFile *.te set filetype=tevents
