-- The state of a session in a few words, for the statusline.
local sessions = require('oberon-bsp.sessions')
local shown = require('oberon-bsp.shown')

local M = {}

local function counted(number, word)
  return string.format('%d %s%s', number, word, number == 1 and '' or 's')
end

-- What was found, or nil where that is nothing.
function M.found(session)
  local errors, warnings = shown.counts(session)
  local words = {}
  if errors > 0 then
    table.insert(words, counted(errors, 'error'))
  end
  if warnings > 0 then
    table.insert(words, counted(warnings, 'warning'))
  end
  return #words > 0 and table.concat(words, ' ') or nil
end

-- What is known of a file once nothing is under way.
local function settled(session, path)
  local targets = path and session.targets[path]
  if session.failed then
    return string.format('failed (%s)', session.failed)
  elseif targets and #targets == 0 then
    return 'in no target'
  end
  return M.found(session) or (session.is_compiled and 'clean' or 'not checked')
end

local function progress(session)
  return session.begun > 0 and string.format('checking %d/%d', session.done, session.begun) or 'checking'
end

function M.of(session, path)
  if session.state == 'starting' then
    return 'starting'
  elseif session.state == 'open' then
    return (session.compile or session.asked) and progress(session) or settled(session, path)
  end
  return string.format('%s (%s)', session.state, session.why or '')
end

-- The state of a buffer: nil where it has nothing to do with Oberon.
function M.of_buffer(buffer)
  local member = sessions.members[buffer]
  if member then
    return M.of(member.session, member.path)
  elseif sessions.is_ours(buffer) then
    return 'off'
  end
end

return M
