-- Buffers join the session of their workspace, and leave it.
local compiling = require('oberon-bsp.compiling')
local display = require('oberon-bsp.display')
local lifecycle = require('oberon-bsp.lifecycle')
local say = require('oberon-bsp.say')
local sessions = require('oberon-bsp.sessions')

local M = {}

-- Does what a saved or opened file asks for, in the state that the session is in.
function M.compile(session, path)
  if session.state == 'refused' then
    lifecycle.open(session)
  elseif session.state == 'ended' then
    say.warn('no server looks at %s (:OberonBspRestart)', sessions.name_of(path))
  elseif session.state == 'open' then
    compiling.file(session, path)
  end
end

function M.join(buffer)
  local path = vim.api.nvim_buf_get_name(buffer)
  local spelled = sessions.folder_of(path)
  if not spelled then
    display.redraw()
    say.warn('there is no %s above %s', sessions.WORKSPACE_FILE, sessions.name_of(path))
    return
  end
  -- Links above the workspace are followed and those inside aren't, since the workspace file names the paths inside.
  local root = vim.loop.fs_realpath(spelled)
  local session = sessions.all[root] or sessions.new(root)
  sessions.members[buffer] = {
    session = session,
    path = root:gsub('/$', '') .. path:sub(#(spelled:gsub('/$', '')) + 1),
  }
  if not sessions.all[root] then
    sessions.all[root] = session
    lifecycle.start(session)
  elseif not sessions.is_workspace_file(path) then
    display.mark(buffer)
    M.compile(session, sessions.members[buffer].path)
  end
end

-- A session ends with its last buffer. A buffer that is read again leaves and comes back.
function M.leave(buffer)
  local member = sessions.members[buffer]
  if not member then
    return
  end
  sessions.members[buffer] = nil
  display.clear(buffer)
  vim.schedule(function()
    local session = member.session
    if #sessions.buffers_of(session) == 0 and sessions.all[session.root] == session then
      sessions.all[session.root] = nil
      lifecycle.stop(session)
    end
  end)
end

function M.read(buffer)
  M.leave(buffer)
  if sessions.is_ours(buffer) then
    M.join(buffer)
  end
end

-- A new workspace file holds buffers that had none, or one further up.
local function take_in(root)
  for _, buffer in ipairs(vim.api.nvim_list_bufs()) do
    if vim.api.nvim_buf_is_loaded(buffer) and sessions.is_ours(buffer) then
      local member = sessions.members[buffer]
      local folder = sessions.folder_of(vim.api.nvim_buf_get_name(buffer))
      if folder and vim.loop.fs_realpath(folder) == root and not (member and member.session.root == root) then
        M.leave(buffer)
        M.join(buffer)
      end
    end
  end
end

-- A file that was saved elsewhere than it was changes its session.
function M.saved(buffer)
  if not sessions.is_ours(buffer) then
    return
  end
  local name = vim.api.nvim_buf_get_name(buffer)
  local folder = sessions.folder_of(name)
  local root = folder and vim.loop.fs_realpath(folder)
  local member = sessions.members[buffer]
  if not member or member.session.root ~= root then
    M.leave(buffer)
    M.join(buffer)
    if root and sessions.is_workspace_file(name) then
      take_in(root)
    end
  elseif sessions.is_workspace_file(name) then
    lifecycle.reload(member.session)
  else
    M.compile(member.session, member.path)
  end
end

return M
