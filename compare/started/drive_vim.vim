" Writes what Vim or Neovim makes of the rank script that is open into the file $TOLD; compare/runs/in_vim.py starts it.
let g:told = ['filetype ' .. &filetype, 'comments ' .. &commentstring]
for [g:line, g:column] in [[1, 1], [3, 8], [4, 1], [4, 4], [4, 12], [4, 16], [4, 21], [4, 23], [4, 26]]
  let g:word = matchstr(getline(g:line), '\%' .. g:column .. 'c\k\+\|\%' .. g:column .. 'c#')
  call add(g:told, g:line .. ':' .. g:column .. ' ' .. g:word .. ' ' .. synIDattr(synID(g:line, g:column, 1), 'name'))
endfor
if has('nvim')
  lua package.preload.dap = function() return { adapters = {}, configurations = {} } end
  lua dofile(vim.env.EDITORS .. '/neovim/mpdbg.lua')
  lua local dap = require('dap'); local first = (dap.configurations[vim.bo.filetype] or { {} })[1]; local start = dap.adapters[first.type]
  \ if start then start(function(it) vim.env.STARTS = it.command .. ' ' .. table.concat(it.args, ' ') end, { program = 'this.mpd' }) end
  call add(g:told, 'debugger ' .. $STARTS)
endif
compiler mpdbg
silent make
for g:it in getqflist()
  call add(g:told, 'fault ' .. bufname(g:it.bufnr) .. ':' .. g:it.lnum .. ' ' .. g:it.text)
endfor
call add(g:told, 'cursor ' .. line('.'))
call writefile(g:told, $TOLD)
qall!
