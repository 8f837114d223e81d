-- Messages to the server of a session.
local options = require('oberon-bsp.options')
local say = require('oberon-bsp.say')

local M = {}

function M.notify(session, method, params)
  if session.server then
    session.server.notify(method, params)
  end
end

local function tell_error(method)
  return function(problem)
    say.error('%s: %s', method, problem.message)
  end
end

-- Asks the server, and returns the id of the request. `on_result` is called with the result and `on_error` with an
-- error object, unless the server was left meanwhile.
function M.request(session, method, params, on_result, on_error)
  local server = session.server
  if not server then
    return nil
  end
  local is_answered = false
  local _, id = server.request(method, params, function(problem, result)
    if session.server ~= server then
      return
    elseif problem then
      (on_error or tell_error(method))(problem)
    else
      on_result(result)
    end
  end, function()
    is_answered = true
  end)
  vim.defer_fn(function()
    if not is_answered and session.server == server then
      say.warn('no answer to %s in %s seconds', method, options.values.timeout)
    end
  end, options.values.timeout * 1000)
  return id
end

return M
