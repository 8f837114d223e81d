-- What a server has published, by file and target.
local M = {}

-- Keeps a list of a document in a target: it replaces the one that is there where `reset` is true, and else comes
-- behind it.
function M.publish(session, params)
  local path, target = vim.uri_to_fname(params.textDocument.uri), params.buildTarget.uri
  session.counts = nil
  local lists = session.shown[path] or {}
  session.shown[path] = lists
  lists[target] = vim.list_extend(not params.reset and lists[target] or {}, params.diagnostics)
end

-- Takes back all that is shown.
function M.forget(session)
  session.shown, session.counts = {}, nil
end

-- What is shown of a file. A file in two targets has a list for each, and equal lists are shown once.
function M.diagnostics_of(session, path)
  local lists = session.shown[path] or {}
  local targets, found, seen = vim.tbl_keys(lists), {}, {}
  table.sort(targets)
  for _, target in ipairs(targets) do
    local list, is_new = lists[target], true
    for _, other in ipairs(seen) do
      is_new = is_new and not vim.deep_equal(list, other)
    end
    if is_new then
      table.insert(seen, list)
      vim.list_extend(found, list)
    end
  end
  return found
end

-- The files of which something is shown, in the order of their names.
function M.files_of(session)
  local files = {}
  for path, lists in pairs(session.shown) do
    for _, list in pairs(lists) do
      if #list > 0 then
        files[path] = true
      end
    end
  end
  files = vim.tbl_keys(files)
  table.sort(files)
  return files
end

local function count(session)
  local errors, warnings = 0, 0
  for _, path in ipairs(M.files_of(session)) do
    for _, diagnostic in ipairs(M.diagnostics_of(session, path)) do
      if M.is_error(diagnostic) then
        errors = errors + 1
      else
        warnings = warnings + 1
      end
    end
  end
  return { errors, warnings }
end

-- How many errors are shown, and how many warnings. They are counted anew where something was published since.
function M.counts(session)
  session.counts = session.counts or count(session)
  return unpack(session.counts)
end

-- A diagnostic without a severity counts as an error.
function M.is_error(diagnostic)
  return (diagnostic.severity or 1) == 1
end

return M
