-- :checkhealth oberon-bsp
local M = {}

-- Up to 0.9 these have longer names, and up to 0.7 they are elsewhere.
local function teller(name)
  local health = vim.health or require('health')
  return health[name] or health['report_' .. name]
end

function M.check()
  local options = require('oberon-bsp.options').values
  local sessions = require('oberon-bsp.sessions')
  local ok, warn, fail = teller('ok'), teller('warn'), teller('error')
  teller('start')('oberon-bsp')
  if vim.fn.has('nvim-0.7.2') == 1 then
    ok('Neovim is 0.7.2 or later')
  else
    fail('Neovim is older than 0.7.2')
  end
  if vim.fn.executable(options.program) == 1 then
    ok('the program is ' .. options.program)
  else
    fail('there is no program ' .. options.program, { 'build it with ./build', "set it by setup { program = '..' }" })
  end
  local is_open = false
  for root, session in pairs(sessions.all) do
    is_open = true
    local tell = session.state == 'open' and ok or warn
    tell(string.format('%s: %s', root, require('oberon-bsp.state').of(session)))
  end
  if not is_open then
    ok('no workspace is open')
  end
end

return M
