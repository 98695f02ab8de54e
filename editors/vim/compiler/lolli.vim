" Runs the program of the buffer, or looks through it, and takes the faults into the quickfix list.
"
"   :compiler lolli
"   :make query --bound 100 --workers 1     runs it with the query in the file `query`
"
" b:lolli_program is the program that is called, in place of lolli.
if exists('current_compiler')
  finish
endif
let current_compiler = 'lolli'
let s:save = &cpoptions
set cpoptions&vim

execute 'CompilerSet makeprg=' . escape(get(b:, 'lolli_program', 'lolli') . ' run %:S $*', ' \|"')
CompilerSet errorformat=fault:\ %f\ %l:%c\ kind\ %n\ %m
CompilerSet errorformat+=lint:\ %f\ %l:%c\ kind\ %n\ %m
CompilerSet errorformat+=%-G%.%#

let &cpoptions = s:save
unlet s:save
