-- mpdbg as a debugger in nvim-dap: dofile('/path/to/editors/neovim/mpdbg.lua') in init.lua, after nvim-dap is there.
local dap = require('dap')
-- The script stands on the command line of the adapter, so that is made for each launch.
dap.adapters.mpdbg = function(callback, config)
  callback({
    type = 'executable',
    command = config.mpdbg or 'mpdbg',
    args = vim.list_extend({ 'dap', config.program }, config.options or {}),
  })
end
dap.configurations.mpd = {
  { type = 'mpdbg', request = 'launch', name = 'mpdbg: this script', program = '${file}' },
}
-- Back: dap.step_back() and dap.reverse_continue(). At a choice: dap.step_into({ askForTargets = true }).
