-- What a person sets by setup{}.
local M = {}

-- The program of the clone that this file is in, where one was built there, and else the one of $PATH.
local function default_program()
  local here = vim.fn.resolve(debug.getinfo(1, 'S').source:sub(2))
  local built = vim.fn.fnamemodify(here, ':h:h:h:h:h') .. '/bin/oberon-bsp'
  return vim.fn.executable(built) == 1 and built or 'oberon-bsp'
end

M.values = {
  program = default_program(), -- the build server, as a path or as a name that is looked for in $PATH
  timeout = 30, -- the seconds after which an answer of the server is missed
  mark_limit = 1000, -- how many diagnostics are marked in a buffer at the most; :OberonBspErrors lists all
  statusline = true, -- whether the state stands in the statusline, where 'statusline' is empty
}

function M.set(given)
  M.values = vim.tbl_extend('force', M.values, given or {})
end

return M
