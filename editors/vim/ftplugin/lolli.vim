" Settings for Lolli programs.
if exists('b:did_ftplugin')
  finish
endif
let b:did_ftplugin = 1
setlocal comments=:% commentstring=%\ %s iskeyword=@,48-57,_
let b:undo_ftplugin = 'setlocal comments< commentstring< iskeyword<'
