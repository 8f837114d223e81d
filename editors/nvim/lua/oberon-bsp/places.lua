-- From places as the protocol has them to places in a buffer.
local sessions = require('oberon-bsp.sessions')

local M = {}

-- The lines of a file, from its buffer where it is open, and whether a byte order mark stands before them.
local function lines_of(path)
  local buffer = sessions.buffer_of(path)
  if buffer then
    return vim.api.nvim_buf_get_lines(buffer, 0, -1, false), vim.bo[buffer].bomb
  end
  local read, lines = pcall(vim.fn.readfile, path)
  return read and lines or {}, false
end

-- The protocol counts a carriage return as the end of a line, and Neovim doesn't where the file's lines end in line
-- feeds. For each line of the protocol: the row, and what comes before it in the row.
local function rows_of(lines)
  local rows = {}
  for row, line in ipairs(lines) do
    local from = 1
    repeat
      local behind = (line:find('\r', from, true) or #line) + 1
      table.insert(rows, { row = row - 1, before = from - 1, text = line:sub(from, behind - 1) })
      from = behind
    until from > #line
  end
  return rows
end

-- A function from a place, as the protocol has it, to a row and a column in bytes, both from 0. A place is a line and
-- a character, counted in UTF-16 units.
function M.of(path)
  local lines, has_mark = lines_of(path)
  local rows = rows_of(lines)
  return function(place)
    local row = rows[place.line + 1]
    if not row then
      local last = lines[#lines] or ''
      return math.max(#lines - 1, 0), #last
    end
    -- A byte order mark is a character of the file, and none of the buffer.
    local units = place.character - ((has_mark and place.line == 0) and 1 or 0)
    local inside, column = pcall(vim.str_byteindex, row.text, math.max(units, 0), true)
    return row.row, row.before + (inside and column or #row.text)
  end
end

return M
