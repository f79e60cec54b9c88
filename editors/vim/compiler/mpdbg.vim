" `:compiler mpdbg`, then `:make`: checks the rank script that is open, and goes to the line of its fault. A fault is told without the
" name of the file (docs/FORMATS.md, "Faults and statuses"), so that is said first.
if exists('g:current_compiler')
  finish
endif
let g:current_compiler = 'mpdbg'
CompilerSet makeprg=(echo\ script\ %:S;\ mpdbg\ check\ %:S)
CompilerSet errorformat=%-Pscript\ %f,mpdbg:\ script\ refused\ %*[0-9]\ %m\ at\ %*[0-9]\ line\ %l,%-G%.%#
