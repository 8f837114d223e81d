-- Which buffer belongs to which session. A session is a workspace and its server, as a table of
--
--   root      the folder of the workspace file
--   state     'starting', 'open', 'refused' or 'ended'
--   why       why it is refused, or how it ended
--   server    the server that runs (server.lua)
--   shown     what it published, by file and target (shown.lua)
--   targets   the targets of each file, as the server told them
--   compile   the compile that isn't answered yet (compiling.lua)
--   failed    why the last compile failed
--   is_every_due  whether every target is to be compiled once it is open
--   begun, done   how many checks that compile has begun, and how many of these are done
local M = {}

M.WORKSPACE_FILE = 'oberon-build.json'

M.all = {} -- the sessions by their root
M.members = {} -- by the number of a buffer, its session and its path
M.wanted = {} -- the buffers that a command joined, whatever their name
M.is_leaving = false -- whether Neovim ends: then nothing is shown any more

function M.new(root)
  return { root = root, state = 'ended', shown = {}, targets = {}, begun = 0, done = 0 }
end

function M.name_of(path)
  return vim.fn.fnamemodify(path, ':t')
end

function M.is_workspace_file(path)
  return M.name_of(path) == M.WORKSPACE_FILE
end

-- Whether a buffer is of a module or a workspace file, by its name or since a command joined it.
function M.is_ours(buffer)
  local name = vim.api.nvim_buf_get_name(buffer)
  return name ~= '' and vim.bo[buffer].buftype == ''
    and (M.wanted[buffer] or name:match('%.Mod$') ~= nil or M.is_workspace_file(name))
end

function M.buffers_of(session)
  local buffers = {}
  for buffer, member in pairs(M.members) do
    if member.session == session then
      table.insert(buffers, buffer)
    end
  end
  table.sort(buffers)
  return buffers
end

-- The modules of a session that are open.
function M.modules_of(session)
  local paths = {}
  for _, buffer in ipairs(M.buffers_of(session)) do
    local path = M.members[buffer].path
    if not M.is_workspace_file(path) then
      table.insert(paths, path)
    end
  end
  return paths
end

-- The buffer of a file, where it is open. Its name may be spelled by way of a link.
function M.buffer_of(path)
  for buffer, member in pairs(M.members) do
    if member.path == path then
      return buffer
    end
  end
end

-- The folder of the workspace that a file is in, as the file's name spells it.
function M.folder_of(path)
  local folder = path
  repeat
    local below = folder
    folder = vim.fn.fnamemodify(folder, ':h')
    local found = vim.loop.fs_stat(folder .. '/' .. M.WORKSPACE_FILE)
    if found and found.type == 'file' then
      return folder
    end
  until folder == below
end

return M
