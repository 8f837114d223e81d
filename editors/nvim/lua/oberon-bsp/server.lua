-- The process of a build server, over the client of Neovim's own JSON-RPC. What that client is called with and what it
-- has differ from version to version.
local M = {}

local rpc = vim.lsp.rpc

-- Up to 0.9 the words behind the first are an argument of their own.
local function start_client(words, dispatchers)
  if vim.fn.has('nvim-0.10') == 1 then
    return rpc.start(words, dispatchers)
  end
  return rpc.start(words[1], vim.list_slice(words, 2), dispatchers)
end

-- Up to 0.7 the process is a member of the client, and from 0.8 on two functions stand for it.
local function is_closing(client)
  if client.is_closing then
    return client.is_closing()
  end
  return client.handle:is_closing()
end

local function terminate(client)
  if is_closing(client) then
    return
  elseif client.terminate then
    client.terminate()
  else
    client.handle:kill('sigterm')
  end
end

-- Whether output that is told as an error of this kind lets nothing be read behind it.
local function is_damage(kind)
  local kinds = rpc.client_errors
  return kind == kinds.INVALID_SERVER_JSON or kind == kinds.READ_ERROR
end

-- Starts a program. `on_notification` is called with a method and params, `on_exit` with a status and a signal, and
-- with true where the server was left for its damaged output. Nil is returned where nothing is started.
function M.start(words, on_notification, on_exit)
  local server = { is_damaged = false }
  local started, client = pcall(start_client, words, {
    notification = on_notification,
    -- Answers to no request are passed over; Neovim's log has them.
    on_error = function(kind)
      if is_damage(kind) then
        server.is_damaged = true
        server.kill()
      end
    end,
    on_exit = vim.schedule_wrap(function(status, signal)
      on_exit(status, signal, server.is_damaged)
    end),
  })
  if not started or not client then
    return nil
  end
  server.request, server.notify = client.request, client.notify
  server.is_closing = function() return is_closing(client) end
  server.kill = function() terminate(client) end
  return server
end

return M
