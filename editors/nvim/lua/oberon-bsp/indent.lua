-- Indentation by the structure of a module. The constructs that are open at a place are a chain from the innermost
-- outward, each with its kind, the column at which it stands, and the one around it; false stands for none.
local M = {}

local SECTIONS = { IMPORT = true, CONST = true, TYPE = true, VAR = true }
local PARTS = { RECORD = true, IF = true, CASE = true, WHILE = true, FOR = true, REPEAT = true }
local OPENING = { ['('] = true, ['['] = true, ['{'] = true }
local CLOSING = { [')'] = true, [']'] = true, ['}'] = true }
local OUTER = { END = true, UNTIL = true, BEGIN = true }
local BEHIND_SECTION = { PROCEDURE = true, RETURN = true }
local INNER = { ELSE = true, ELSIF = true, ['|'] = true, [')'] = true, [']'] = true, ['}'] = true }

local function is_kind(open, kind)
  return open and open.kind == kind
end

local function without_section(open)
  return is_kind(open, 'section') and open.outer or open
end

local function outside(open)
  return open and open.outer
end

-- What is open behind a token, in a line that stands at a column.
local function behind(open, token, column)
  local function inside(kind, outer)
    return { kind = kind, column = column, outer = outer }
  end
  if OPENING[token] then
    return inside('bracket', open)
  elseif is_kind(open, 'bracket') then
    return CLOSING[token] and open.outer or open
  elseif SECTIONS[token] then
    return inside('section', without_section(open))
  elseif token == 'MODULE' then
    return inside('module', open)
  elseif token == 'PROCEDURE' then
    return inside('block', without_section(open))
  elseif token == 'BEGIN' then
    open = without_section(open)
    return is_kind(open, 'module') and { kind = 'block', column = open.column, outer = open.outer } or open
  elseif token == 'END' or token == 'UNTIL' then
    return outside(without_section(open))
  elseif PARTS[token] then
    return inside('part', open)
  end
  return open
end

-- A line without its strings and comments, and how deep in comments its end is, where its front is at a depth.
local function code_of(line, depth)
  local code, at = {}, 1
  while at <= #line do
    local two = line:sub(at, at + 1)
    local text = depth == 0 and line:match('^"[^"]*"', at)
    if two == '(*' then
      depth, at = depth + 1, at + 2
    elseif two == '*)' and depth > 0 then
      depth, at = depth - 1, at + 2
    elseif text then
      at = at + #text
    else
      table.insert(code, depth == 0 and line:sub(at, at) or ' ')
      at = at + 1
    end
  end
  return table.concat(code), depth
end

local function behind_line(open, code, column)
  local at = 1
  while at <= #code do
    local word = code:match('^%a%w*', at) or code:sub(at, at)
    open = behind(open, word, column)
    at = at + #word
  end
  return open
end

-- The column of a line with this first token, before which these constructs are open. What a module declares stands at
-- its own column.
local function column_of(open, first, width)
  if not INNER[first] and (OUTER[first] or SECTIONS[first] or BEHIND_SECTION[first]) then
    open = without_section(open)
  end
  if not open then
    return 0
  elseif INNER[first] or OUTER[first] or is_kind(open, 'module') then
    return open.column
  end
  return open.column + width
end

local function line_at(number)
  return vim.api.nvim_buf_get_lines(0, number - 1, number, false)[1]
end

-- The first token at or behind a line that is no comment: a comment stands as what it is about.
local function first_token(number)
  local depth, line, code = 0, line_at(number), nil
  while line do
    code, depth = code_of(line, depth)
    code = vim.trim(code)
    if code ~= '' or line == '' then
      return code:match('^%a%w*') or code:sub(1, 1)
    end
    number = number + 1
    line = line_at(number)
  end
  return ''
end

-- By buffers, for each line up to the last one that is known: what is open before it, and how deep in comments it
-- begins. Lines that are indented one after another take one way through the text.
local known = {}

local function known_in(buffer)
  if not known[buffer] then
    local function forget()
      known[buffer] = nil
      return true
    end
    known[buffer] = { last = 1, { open = false, depth = 0 } }
    vim.api.nvim_buf_attach(buffer, false, {
      on_lines = function(_, _, _, first)
        if not known[buffer] then
          return true
        end
        known[buffer].last = math.min(known[buffer].last, first + 1)
      end,
      on_reload = forget,
      on_detach = forget,
    })
  end
  return known[buffer]
end

-- What is open before a line of the current buffer, and how deep in comments it begins.
local function before(number)
  local lines = known_in(vim.api.nvim_get_current_buf())
  for at = lines.last, number - 1 do
    local line = line_at(at)
    local code, depth = code_of(line, lines[at].depth)
    local column = vim.fn.strdisplaywidth(line:match('^%s*'))
    lines[at + 1] = { open = behind_line(lines[at].open, code, column), depth = depth }
  end
  lines.last = math.max(lines.last, number)
  return lines[number].open, lines[number].depth
end

-- The column of a line of the current buffer, or -1 where it begins in a comment.
function M.at(number)
  local open, depth = before(number)
  if depth > 0 then
    return -1
  end
  return column_of(open, first_token(number), vim.fn.shiftwidth())
end

return M
