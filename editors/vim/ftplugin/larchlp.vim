" Comments of proof scripts, and indentation as the line before.
setlocal comments=:% commentstring=%\ %s expandtab shiftwidth=2 autoindent
let b:undo_ftplugin = 'setlocal comments< commentstring< expandtab< shiftwidth< autoindent<'
