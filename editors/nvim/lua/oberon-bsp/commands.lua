-- What a person calls.
local buffers = require('oberon-bsp.buffers')
local compiling = require('oberon-bsp.compiling')
local display = require('oberon-bsp.display')
local lifecycle = require('oberon-bsp.lifecycle')
local options = require('oberon-bsp.options')
local say = require('oberon-bsp.say')
local sessions = require('oberon-bsp.sessions')
local state = require('oberon-bsp.state')

local M = {}

-- The session and the path of the buffer that the person is in. A list of errors stands for its workspace file.
local function here()
  local member = sessions.members[vim.api.nvim_get_current_buf()]
  local listed = vim.bo.buftype == 'quickfix' and sessions.all[vim.fn.getqflist({ context = 0 }).context]
  return member or listed and { session = listed, path = listed.root .. '/' .. sessions.WORKSPACE_FILE }
end

-- What is done with the session of the buffer that the person is in.
local function with_session(act)
  return function()
    local member = here()
    if member then
      act(member.session, member.path)
    else
      say.warn('no workspace is open in this buffer')
    end
  end
end

local function compile(session, path)
  if session.state == 'open' and sessions.is_workspace_file(path) then
    compiling.opened(session)
  else
    buffers.compile(session, path)
  end
end

local function compile_all(session, path)
  if session.state == 'open' then
    compiling.every(session)
  else
    session.is_every_due = true
    buffers.compile(session, path)
  end
end

local function list_errors(session)
  display.new_list(session)
  vim.cmd('copen')
end

-- Joins the buffer that the person is in, whatever its name.
local function join()
  local buffer = vim.api.nvim_get_current_buf()
  if vim.api.nvim_buf_get_name(buffer) == '' then
    say.warn('this buffer has no file')
    return
  end
  sessions.wanted[buffer] = true
  vim.bo[buffer].filetype = 'oberon'
  buffers.read(buffer)
end

-- Tells all there is to tell, which may take more than one line.
local function tell_state()
  local member = here()
  local lines = {
    'program:   ' .. options.values.program,
    'workspace: ' .. (member and member.session.root or 'none'),
    'state:     ' .. (member and state.of(member.session, member.path) or 'off'),
  }
  vim.list_extend(lines, say.whole)
  vim.api.nvim_echo({ { table.concat(lines, '\n') } }, false, {})
end

local COMMANDS = {
  Compile = { with_session(compile), 'Compile the targets of all open files, as saving does' },
  CompileAll = { with_session(compile_all), 'Compile every target of the workspace' },
  Restart = { with_session(lifecycle.start), "Start the server of this buffer's workspace anew" },
  Errors = { with_session(list_errors), "List the errors of this buffer's workspace, also of files that aren't open" },
  Join = { join, "Let this buffer's file take part in its workspace, whatever its name" },
  State = { tell_state, 'Tell the state, and the last messages whole' },
}

function M.define()
  for name, command in pairs(COMMANDS) do
    vim.api.nvim_create_user_command('OberonBsp' .. name, command[1], { desc = command[2] })
  end
end

return M
