-- Marks in buffers, and the list of errors.
local options = require('oberon-bsp.options')
local places = require('oberon-bsp.places')
local sessions = require('oberon-bsp.sessions')
local shown = require('oberon-bsp.shown')

local M = {}

M.namespace = vim.api.nvim_create_namespace('oberon-bsp')

local SEVERITIES = {
  vim.diagnostic.severity.ERROR,
  vim.diagnostic.severity.WARN,
  vim.diagnostic.severity.INFO,
  vim.diagnostic.severity.HINT,
}

local function marks_of(session, path)
  local place, marks = places.of(path), {}
  for _, diagnostic in ipairs(shown.diagnostics_of(session, path)) do
    if #marks == options.values.mark_limit then
      break
    end
    local row, column = place(diagnostic.range.start)
    local end_row, end_column = place(diagnostic.range['end'])
    table.insert(marks, {
      lnum = row,
      col = column,
      end_lnum = end_row,
      end_col = end_column,
      severity = SEVERITIES[diagnostic.severity] or SEVERITIES[1],
      message = diagnostic.message,
      source = diagnostic.source,
      code = diagnostic.code,
    })
  end
  return marks
end

-- Marks in a buffer what its session shows of its file. A text that was changed since it was saved isn't the one that
-- was compiled: what is marked in it stays, and moves with the text.
function M.mark(buffer)
  local member = sessions.members[buffer]
  local marks = marks_of(member.session, member.path)
  if #marks == 0 or not vim.bo[buffer].modified then
    vim.diagnostic.set(M.namespace, buffer, marks)
  end
end

function M.clear(buffer)
  if not sessions.is_leaving then
    vim.diagnostic.reset(M.namespace, buffer)
  end
end

local function entries_of(session)
  local entries = {}
  for _, path in ipairs(shown.files_of(session)) do
    local place, buffer = places.of(path), sessions.buffer_of(path)
    for _, diagnostic in ipairs(shown.diagnostics_of(session, path)) do
      local row, column = place(diagnostic.range.start)
      local code = diagnostic.code and string.format(' [%s]', diagnostic.code) or ''
      table.insert(entries, {
        bufnr = buffer,
        filename = path,
        lnum = row + 1,
        col = column + 1,
        text = diagnostic.message .. code,
        type = shown.is_error(diagnostic) and 'E' or 'W',
      })
    end
  end
  return entries
end

-- Makes the quickfix list of the session's errors.
function M.new_list(session)
  vim.fn.setqflist({}, ' ', { title = 'Oberon errors', context = session.root, items = entries_of(session) })
  session.list = vim.fn.getqflist({ id = 0 }).id
end

-- Brings that list up to date, where it is still there. The place in it stays.
local function renew_list(session)
  local list = session.list and vim.fn.getqflist({ id = session.list, context = 0, idx = 0 })
  if list and list.id == session.list and list.context == session.root then
    local entries = entries_of(session)
    local place = { id = list.id, items = entries }
    if #entries > 0 then
      place.idx = math.min(math.max(list.idx, 1), #entries)
    end
    vim.fn.setqflist({}, 'r', place)
  end
end

-- Statuslines are drawn again soon, however often this is called before.
local is_due = false
function M.redraw()
  if not is_due and not sessions.is_leaving then
    is_due = true
    vim.schedule(function()
      is_due = false
      vim.cmd('redrawstatus!')
    end)
  end
end

-- Neovim that ends shows nothing any more; one that a signal ends would wait for ever on a list.
function M.show(session)
  if sessions.is_leaving then
    return
  end
  for _, buffer in ipairs(sessions.buffers_of(session)) do
    M.mark(buffer)
  end
  renew_list(session)
  M.redraw()
end

return M
