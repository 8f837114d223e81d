-- Compiles: of which targets, how far one is, and what is said of its end.
local display = require('oberon-bsp.display')
local requests = require('oberon-bsp.requests')
local say = require('oberon-bsp.say')
local sessions = require('oberon-bsp.sessions')
local shown = require('oberon-bsp.shown')
local state = require('oberon-bsp.state')

local M = {}

local LIST = '(:OberonBspErrors lists them)'

-- The targets of several lists, each once.
local function united(lists)
  local targets, is_known = {}, {}
  for _, list in ipairs(lists) do
    for _, target in ipairs(list) do
      if not is_known[target.uri] then
        is_known[target.uri] = true
        table.insert(targets, { uri = target.uri })
      end
    end
  end
  return targets
end

local function tell_end(session, targets)
  local unopened = {}
  for _, path in ipairs(shown.files_of(session)) do
    if not sessions.buffer_of(path) then
      table.insert(unopened, sessions.name_of(path))
    end
  end
  local found = state.found(session)
  if #unopened > 0 then
    say.warn('errors in %s %s', table.concat(unopened, ', '), LIST)
  elseif found then
    say.warn('%s %s', found, LIST)
  else
    say.info('no errors (%d target%s)', #targets, #targets == 1 and '' or 's')
  end
end

-- Compiles targets, and in place of a compile that isn't answered yet its targets too.
local function compile(session, targets)
  local earlier = session.compile or { targets = {} }
  if earlier.id then
    requests.notify(session, '$/cancelRequest', { id = earlier.id })
  end
  local own = { targets = united { earlier.targets, targets } }
  session.compile = own
  local function done(problem)
    if session.compile ~= own then
      return
    end
    session.compile, session.is_compiled = nil, true
    session.failed = problem and problem.message
    display.show(session)
    if problem then
      say.error('compiling failed: %s', problem.message)
    else
      tell_end(session, own.targets)
    end
  end
  own.id = requests.request(session, 'buildTarget/compile', { targets = own.targets }, function() done() end, done)
  display.redraw()
end

-- Asks in which targets files are, and goes on when all is answered.
local function ask_targets(session, paths, go_on)
  local open = #paths
  session.asked = (session.asked or 0) + 1
  local function answered()
    open = open - 1
    if open <= 0 then
      session.asked = session.asked > 1 and session.asked - 1 or nil
      go_on()
      display.redraw()
    end
  end
  for _, path in ipairs(paths) do
    local document = { uri = vim.uri_from_fname(path) }
    requests.request(session, 'buildTarget/inverseSources', { textDocument = document }, function(result)
      session.targets[path] = result.targets
      answered()
    end, function(problem)
      say.error('buildTarget/inverseSources: %s', problem.message)
      answered()
    end)
  end
  if open == 0 then
    answered()
  end
end

-- Compiles the targets of all modules that are open: a library's users are among them where they are open.
local function compile_open(session)
  local lists = {}
  for _, path in ipairs(sessions.modules_of(session)) do
    table.insert(lists, session.targets[path] or {})
  end
  local targets = united(lists)
  if #targets > 0 then
    compile(session, targets)
  end
end

-- Compiles when a file was opened or saved.
function M.file(session, path)
  ask_targets(session, { path }, function()
    if #(session.targets[path] or {}) > 0 then
      compile_open(session)
    else
      say.warn('%s is in no target of %s', sessions.name_of(path), sessions.WORKSPACE_FILE)
    end
  end)
end

-- Compiles when the workspace was opened, or its file read again.
function M.opened(session)
  session.targets = {}
  local paths = sessions.modules_of(session)
  ask_targets(session, paths, function()
    for _, path in ipairs(paths) do
      if #(session.targets[path] or {}) == 0 then
        say.warn('%s is in no target of %s', sessions.name_of(path), sessions.WORKSPACE_FILE)
      end
    end
    compile_open(session)
  end)
end

-- Compiles every target of the workspace: then what is shown are the errors of the workspace.
function M.every(session)
  requests.request(session, 'workspace/buildTargets', nil, function(result)
    compile(session, vim.tbl_map(function(target) return target.id end, result.targets))
  end)
end

-- A check is a task below a target's, and says nothing of its kind.
function M.task_started(session, params)
  local id, parents = params.taskId.id, params.taskId.parents or {}
  if #parents == 0 then
    session.begun, session.done, session.checks = 0, 0, {}
  elseif not params.dataKind then
    session.begun = session.begun + 1
    session.checks[id] = true
  end
  display.redraw()
end

function M.task_finished(session, params)
  if session.checks and session.checks[params.taskId.id] then
    session.done = session.done + 1
    display.redraw()
  end
end

return M
