-- The way of a session: a server is started, opens the workspace, reads its file again, and is left.
local compiling = require('oberon-bsp.compiling')
local display = require('oberon-bsp.display')
local options = require('oberon-bsp.options')
local requests = require('oberon-bsp.requests')
local say = require('oberon-bsp.say')
local server = require('oberon-bsp.server')
local sessions = require('oberon-bsp.sessions')
local shown = require('oberon-bsp.shown')

local M = {}

local STATUSES = {
  [0] = 'it ended by itself',
  'its input ended',
  'its input was damaged',
  'reading its input failed',
  'writing its output failed',
  'it had no memory',
  "it doesn't know its command line",
}

-- Leaves the server of a session, for a reason, and takes back what it has shown.
local function forget(session, why)
  session.server, session.state, session.why = nil, 'ended', why
  session.compile, session.asked, session.failed, session.is_compiled = nil, nil, nil, nil
  session.targets, session.begun, session.done = {}, 0, 0
  shown.forget(session)
  display.show(session)
end

-- Ends a server in the background.
function M.stop(session)
  local left = session.server
  if not left then
    return
  end
  forget(session, 'stopped')
  left.request('build/shutdown', nil, function()
    left.notify('build/exit')
  end)
  vim.defer_fn(left.kill, 3000)
end

local function ended(session, status, signal, is_damaged)
  if is_damaged then
    forget(session, 'damaged output')
    say.error('the server is left, since its output is damaged')
  elseif signal ~= 0 then
    forget(session, 'signal ' .. signal)
    say.error('the server ended by signal %d', signal)
  else
    forget(session, 'status ' .. status)
    say.error('ended with status %d: %s', status, STATUSES[status] or 'an unknown status')
  end
end

local ACTS = {
  ['build/publishDiagnostics'] = shown.publish,
  ['build/taskStart'] = compiling.task_started,
  ['build/taskFinish'] = compiling.task_finished,
  ['build/showMessage'] = function(_, params) say.info('%s', params.message) end,
}

-- Starts a program that serves the workspace of a session. What a server says or does that was left before isn't
-- this session's any more.
local function connect(session)
  local own
  own = server.start({ options.values.program, 'serve', session.root }, function(method, params)
    if session.server == own and ACTS[method] then
      ACTS[method](session, params)
    end
  end, function(status, signal, is_damaged)
    if session.server == own then
      ended(session, status, signal, is_damaged)
    end
  end)
  return own
end

local function refused(session, problem)
  session.state, session.why = 'refused', problem.message
  display.redraw()
  say.error("not opened: %s", problem.message)
end

-- Has the server open the workspace.
function M.open(session)
  session.state, session.why = 'starting', nil
  display.redraw()
  local version = vim.version()
  requests.request(session, 'build/initialize', {
    displayName = 'Neovim',
    version = string.format('%d.%d.%d', version.major, version.minor, version.patch),
    bspVersion = '2.2.0',
    rootUri = vim.uri_from_fname(session.root),
    capabilities = { languageIds = { 'oberon' } },
  }, function(result)
    if type(result) ~= 'table' or not result.bspVersion then
      M.stop(session)
      session.why = 'no build server'
      say.error('no build server: %s', options.values.program)
      return
    end
    session.state = 'open'
    session.can_reload = (result.capabilities or {}).canReload == true
    requests.notify(session, 'build/initialized', vim.empty_dict())
    compiling.opened(session)
    if session.is_every_due then
      session.is_every_due = nil
      compiling.every(session)
    end
  end, function(problem)
    refused(session, problem)
  end)
end

-- Starts a server, in place of the one that runs.
function M.start(session)
  M.stop(session)
  if vim.fn.executable(options.values.program) == 1 then
    session.server = connect(session)
  end
  if session.server then
    M.open(session)
  else
    session.state, session.why = 'ended', 'no program'
    say.error("can't be started, no such program: %s", options.values.program)
  end
end

-- Lets the server have the workspace file as it is now.
function M.reload(session)
  if session.state == 'refused' then
    M.open(session)
  elseif session.state == 'open' and session.can_reload then
    requests.request(session, 'workspace/reload', nil, function()
      session.why = nil
      compiling.opened(session)
    end, function(problem)
      -- The method isn't known.
      if problem.code == -32601 then
        M.start(session)
      else
        session.failed = problem.message
        display.redraw()
        say.error('not reloaded: %s', problem.message)
      end
    end)
  elseif session.state ~= 'starting' then
    M.start(session)
  end
end

-- Ends all servers, and waits a moment for it.
function M.leave_all()
  sessions.is_leaving = true
  local servers = {}
  for _, session in pairs(sessions.all) do
    table.insert(servers, session.server)
    M.stop(session)
  end
  vim.wait(2000, function()
    return #vim.tbl_filter(function(left) return not left.is_closing() end, servers) == 0
  end, 20)
  for _, left in ipairs(servers) do
    left.kill()
  end
end

return M
