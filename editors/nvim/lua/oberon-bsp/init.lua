-- Shows in Neovim what the build server oberon-bsp finds in modules of Oberon-07. Buffers of files below one
-- oberon-build.json share a server, which compiles the targets of all open files when one is opened or saved. What it
-- publishes stands in the buffers as diagnostics, and for all files, open or not, in the quickfix list of
-- :OberonBspErrors. `:help oberon-bsp` has the rest.
local M = {}

-- Where 'statusline' is empty it gets this, which shows what an empty one shows, and the state.
local STATUSLINE = "%<%f %h%m%r %{v:lua.require'oberon-bsp'.statusline()}%=%-14.(%l,%c%V%) %P"

local is_started = false

local function watch_buffers()
  local buffers = require('oberon-bsp.buffers')
  local sessions = require('oberon-bsp.sessions')
  local group = vim.api.nvim_create_augroup('oberon-bsp', {})
  local function on(events, act)
    vim.api.nvim_create_autocmd(events, { group = group, callback = function(event) act(event.buf) end })
  end
  on('BufReadPost', buffers.read)
  on('BufWritePost', buffers.saved)
  on({ 'BufUnload', 'BufFilePost' }, buffers.leave)
  on('BufWipeout', function(buffer) sessions.wanted[buffer] = nil end)
  on('VimLeavePre', require('oberon-bsp.lifecycle').leave_all)
end

-- Defines the commands, and joins the files that are open and those that will be. It is done once.
function M.start()
  if is_started then
    return
  end
  is_started = true
  require('oberon-bsp.commands').define()
  watch_buffers()
  if require('oberon-bsp.options').values.statusline and vim.o.statusline == '' then
    vim.o.statusline = STATUSLINE
  end
end

function M.setup(given)
  require('oberon-bsp.options').set(given)
  M.start()
end

-- The state of a buffer, or of the current one: 'off', 'starting', 'checking 3/5', 'clean', '2 errors 1 warning',
-- 'in no target', 'refused (..)', 'failed (..)' or 'ended (..)'; and nil where it has nothing to do with Oberon.
function M.state(buffer)
  return require('oberon-bsp.state').of_buffer(buffer or vim.api.nvim_get_current_buf())
end

-- The state as a part of a statusline: empty in other buffers.
function M.statusline()
  local state = M.state()
  return state and string.format('[Oberon: %s] ', state) or ''
end

return M
