autocmd BufRead,BufNewFile *.rml setfiletype rml
