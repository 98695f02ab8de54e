" Colours for Lolli programs and queries.
if exists('b:current_syntax')
  finish
endif

syntax keyword lolliKeyword true erase forall exists is
syntax keyword lolliMark MODULE LOCAL LINEAR
syntax match lolliName '\<\l\w*\>'
syntax match lolliVariable '\<\u\w*\>'
syntax match lolliVariable '\<_\w\+\>'
syntax match lolliAny '\<_\>'
" A sign that stands below another one wins where both begin at one place, so the longest stand last.
syntax match lolliDelimiter '[.,(){}]'
syntax match lolliOperator '[<&;+*-]'
syntax match lolliOperator '\\'
syntax match lolliOperator '::'
syntax match lolliOperator ':-'
syntax match lolliOperator '<='
syntax match lolliOperator '=>'
syntax match lolliOperator '=<'
syntax match lolliOperator '-o'
syntax match lolliOperator '-->'
syntax match lolliNumber '-\?\d\+'
syntax match lolliComment '%.*$' contains=lolliTodo
syntax keyword lolliTodo contained TODO FIXME

highlight default link lolliKeyword Keyword
highlight default link lolliMark PreProc
highlight default link lolliName Identifier
highlight default link lolliVariable Type
highlight default link lolliAny Type
highlight default link lolliDelimiter Delimiter
highlight default link lolliOperator Operator
highlight default link lolliNumber Number
highlight default link lolliComment Comment
highlight default link lolliTodo Todo

let b:current_syntax = 'lolli'
