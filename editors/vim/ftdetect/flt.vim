" Files with texts in the callback language of fltstack.
autocmd BufNewFile,BufRead *.flt setfiletype flt
