-- nvim-dap: :luafile this file, or require it. F-keys are up to you: dap.step_back() and dap.reverse_continue() go back.
local dap = require('dap')

dap.adapters.uringwalk = { type = 'executable', command = 'uringwalk', args = { 'dap' } }

local function trace()
  return vim.fn.input('Trace: ', vim.fn.getcwd() .. '/', 'file')
end

dap.configurations.json = {
  { type = 'uringwalk', request = 'launch', name = 'uringwalk: this script', program = '${file}', stopOnEntry = true },
  { type = 'uringwalk', request = 'launch', name = 'uringwalk: a trace', trace = trace, stopOnEntry = true },
}
