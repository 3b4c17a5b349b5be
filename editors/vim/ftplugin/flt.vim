" How a text in the callback language of fltstack is edited: `:make` lists what is wrong with it.

if exists('b:did_ftplugin')
  finish
endif
let b:did_ftplugin = 1

setlocal comments=:# commentstring=#\ %s
setlocal formatoptions-=t formatoptions+=croql
" as `fltstack format` lays texts out
setlocal autoindent expandtab shiftwidth=2 softtabstop=2
" each block is a fold, and all are open at first
setlocal foldmethod=syntax foldlevel=99
compiler fltstack

let b:undo_ftplugin = 'setlocal comments< commentstring< formatoptions< autoindent< expandtab< shiftwidth< softtabstop<'
      \ . ' foldmethod< foldlevel< makeprg< errorformat< | unlet! b:current_compiler'
