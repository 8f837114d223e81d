-- Lines to the person, each of which fits the last line of the screen: a longer one stops Neovim until ENTER is pressed.
local M = {}

local KEPT = 20

M.whole = {} -- the last lines, as they were before they were cut

local function fitted(line)
  local room = math.max(vim.v.echospace, 20)
  if vim.fn.strdisplaywidth(line) <= room then
    return line
  end
  local length = vim.fn.strchars(line)
  repeat
    length = length - 1
    line = vim.fn.strcharpart(line, 0, length)
  until vim.fn.strdisplaywidth(line) < room
  return line .. '…'
end

local function say(level, format, ...)
  local line = 'oberon-bsp: ' .. string.format(format, ...):gsub('%c', ' ')
  table.insert(M.whole, line)
  if #M.whole > KEPT then
    table.remove(M.whole, 1)
  end
  -- An error that is told inside of a command would end that command.
  vim.schedule(function()
    vim.notify(fitted(line), vim.log.levels[level])
  end)
end

function M.info(...) say('INFO', ...) end
function M.warn(...) say('WARN', ...) end
function M.error(...) say('ERROR', ...) end

return M
