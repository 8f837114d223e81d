"""Faults that a person would notice, each as a change of a package, with the test that has to see it."""
import collections

Fault = collections.namedtuple("Fault", "what editor edits test")

# What is planted, the test, and for each editor a file and two texts, or several such.
TABLE = (
    (
        "errors and warnings are swapped in the text", "errors_and_warnings",
        ("nvim", "lua/oberon-bsp/display.lua", "SEVERITIES[diagnostic.severity]", "SEVERITIES[3 - diagnostic.severity]"),
        ("emacs", "oberon-bsp-shown.el", "((or 1 'nil) :error)\n    (2 :warning)", "((or 1 'nil) :warning)\n    (2 :error)"),
    ),
    (
        "errors and warnings are swapped in the list", "errors_and_warnings",
        ("nvim", "lua/oberon-bsp/display.lua", "and 'E' or 'W'", "and 'W' or 'E'"),
        ("emacs", "oberon-bsp-list.el", '"error" "warning"', '"warning" "error"'),
    ),
    (
        "an open list is never brought up to date", "open_list_renewed",
        ("nvim", "lua/oberon-bsp/display.lua", "  renew_list(session)\n", ""),
        ("emacs", "oberon-bsp-list.el", "        (tabulated-list-print t)", "        nil"),
    ),
    (
        "equal lists of two targets are doubled", "equal_lists_once",
        ("nvim", "lua/oberon-bsp/shown.lua", "is_new and not vim.deep_equal(list, other)", "is_new"),
        ("emacs", "oberon-bsp-shown.el", "(cl-pushnew list (gethash (car key) lists) :test #'equal)",
         "(push list (gethash (car key) lists))"),
    ),
    (
        "a file that is saved into another workspace keeps its session", "saved_elsewhere",
        ("nvim", "lua/oberon-bsp/buffers.lua", "  if not member or member.session.root ~= root then", "  if not member then",
         "lua/oberon-bsp/init.lua", "{ 'BufUnload', 'BufFilePost' }", "{ 'BufUnload' }"),
        ("emacs", "oberon-bsp.el", "   ((oberon-bsp--is-elsewhere)\n", "   ((not oberon-bsp--session)\n",
         "oberon-bsp.el", "  (oberon-bsp--leave)\n  (add-hook 'after-save-hook", "  (add-hook 'after-save-hook"),
    ),
    (
        "pieces are put together in the wrong order", "many_pieces",
        ("nvim", "lua/oberon-bsp/shown.lua",
         "vim.list_extend(not params.reset and lists[target] or {}, params.diagnostics)",
         "vim.list_extend(params.diagnostics, not params.reset and lists[target] or {})"),
        ("emacs", "oberon-bsp-shown.el", "(reverse (cons nil pieces))", "(append pieces (list nil))"),
    ),
    (
        "a piece without reset replaces those before it", "many_pieces",
        ("nvim", "lua/oberon-bsp/shown.lua", "not params.reset and lists[target] or {}", "{}"),
        ("emacs", "oberon-bsp-shown.el", "(unless (eq reset t) (gethash key shown))", "nil"),
    ),
    (
        "a renamed buffer keeps its file", "renamed",
        ("nvim", "lua/oberon-bsp/init.lua", "{ 'BufUnload', 'BufFilePost' }", "{ 'BufUnload' }"),
        ("emacs", "oberon-bsp-session.el", "(file-relative-name buffer-file-name",
         "(file-relative-name (with-memoization (get 'oberon-bsp--file (current-buffer)) buffer-file-name)"),
    ),
    (
        "shutdown is never sent", "shutdown_on_close",
        ("nvim", "lua/oberon-bsp/lifecycle.lua", "left.request('build/shutdown', nil, function()\n    left.notify('build/exit')\n  end)",
         "left.notify('build/exit')"),
        ("emacs", "oberon-bsp-server.el", "(oberon-bsp--request session :build/shutdown nil leave leave)", "(funcall leave nil)"),
    ),
    (
        "servers aren't ended when the editor is quit", "shutdown_on_quit",
        ("nvim", "lua/oberon-bsp/init.lua", "  on('VimLeavePre', require('oberon-bsp.lifecycle').leave_all)\n", "",
         "lua/oberon-bsp/init.lua", "{ 'BufUnload', 'BufFilePost' }", "{ 'BufFilePost' }"),
        ("emacs", "oberon-bsp-server.el", "(add-hook 'kill-emacs-hook #'oberon-bsp--leave-all)", ""),
    ),
    (
        "late publications of a server that was left are shown", "late_publications",
        ("nvim", "lua/oberon-bsp/lifecycle.lua", "if session.server == own and ACTS[method] then", "if ACTS[method] then"),
        ("emacs", "oberon-bsp-server.el", "(when (eq connection (oberon-bsp--session-connection session))\n    (pcase method",
         "(progn (ignore connection)\n    (pcase method"),
    ),
    (
        "a dependent target's errors are missing", "dependents_compiled",
        ("nvim", "lua/oberon-bsp/compiling.lua", "      compile_open(session)\n    else", "      compile(session, session.targets[path])\n    else"),
        ("emacs", "oberon-bsp-compile.el", "         (oberon-bsp--compile-open session)\n       (oberon-bsp--tell-outside",
         "         (oberon-bsp--compile session (oberon-bsp--targets-of session file))\n       (oberon-bsp--tell-outside"),
    ),
    (
        "a compile of every target compiles those of open files alone", "every_target_compiled",
        ("nvim", "lua/oberon-bsp/commands.lua", "    compiling.every(session)", "    compiling.opened(session)"),
        ("emacs", "oberon-bsp.el", "(oberon-bsp--compile-every session)", "(oberon-bsp--compile-opened session)"),
    ),
    (
        "an editor whose terminal is closed goes on", "ended_by_hangup",
        ("nvim", "lua/oberon-bsp/display.lua", "  if sessions.is_leaving then\n    return\n  end\n", ""),
        ("emacs", "oberon-bsp-server.el", "(< 0 (cl-decf rounds))", "t", "oberon-bsp-server.el",
         "        (jsonrpc-async-request connection :build/shutdown nil :timeout nil)\n"
         "        (jsonrpc-notify connection :build/exit nil)", "        (ignore connection)"),
    ),
    (
        "an editor that is terminated goes on", "ended_by_termination",
        ("nvim", "lua/oberon-bsp/display.lua", "  if sessions.is_leaving then\n    return\n  end\n", ""),
        ("emacs", "oberon-bsp-server.el", "(< 0 (cl-decf rounds))", "t", "oberon-bsp-server.el",
         "        (jsonrpc-async-request connection :build/shutdown nil :timeout nil)\n"
         "        (jsonrpc-notify connection :build/exit nil)", "        (ignore connection)"),
    ),
    (
        "a message is longer than the line", "eighty_columns",
        ("nvim", "lua/oberon-bsp/say.lua", "vim.notify(fitted(line), ", "vim.notify(line, "),
    ),
    (
        "a dead server looks like a clean file", "state_of_servers",
        ("nvim", "lua/oberon-bsp/state.lua", "  return string.format('%s (%s)', session.state, session.why or '')", "  return 'clean'"),
        ("emacs", "oberon-bsp-shown.el", '(state (format "%s (%s)" state (oberon-bsp--session-why session)))', '(_ "clean")'),
    ),
    (
        "a refused workspace looks like a clean file", "state_of_refusals",
        ("nvim", "lua/oberon-bsp/lifecycle.lua", "  session.state, session.why = 'refused', problem.message", "  session.state = 'open'"),
        ("emacs", "oberon-bsp-server.el", "(setf (oberon-bsp--session-state session) 'refused", "(setf (oberon-bsp--session-state session) 'open"),
    ),
    (
        "checks that are done aren't counted", "state_of_checks",
        ("nvim", "lua/oberon-bsp/compiling.lua", "session.done = session.done + 1", "session.done = session.done"),
        ("emacs", "oberon-bsp-compile.el", "(cl-incf (oberon-bsp--session-done session))", "(ignore session)"),
    ),
    (
        "a compile that finds nothing says nothing", "state_of_files",
        ("nvim", "lua/oberon-bsp/compiling.lua", "    say.info('no errors", "    string.format('no errors"),
        ("emacs", "oberon-bsp-compile.el", '(oberon-bsp--say "no errors', '(ignore "no errors'),
    ),
    (
        "the state isn't in its line", "state_of_files",
        ("nvim", "lua/oberon-bsp/init.lua", " %{v:lua.require'oberon-bsp'.statusline()}", ""),
        ("emacs", "oberon-bsp.el", '(:eval (format " Oberon:%s" (oberon-bsp-state)))', '" Oberon"'),
    ),
    (
        "a workspace file that is made later takes nothing in", "workspace_made_later",
        ("nvim", "lua/oberon-bsp/buffers.lua", "      take_in(root)\n", ""),
        ("emacs", "oberon-bsp.el", "        (oberon-bsp--take-in)", "        nil"),
    ),
    (
        "columns are counted in code points", "error_shown_and_mended",
        ("nvim", "lua/oberon-bsp/places.lua", "math.max(units, 0), true)", "math.max(units, 0), false)"),
        ("emacs", "oberon-bsp-places.el", "(if (< #xffff (char-after)) 2 1)", "1"),
    ),
    (
        "what ends a construct isn't taken back", "indented_by_structure",
        ("nvim", "lua/oberon-bsp/indent.lua", "{ END = true, UNTIL = true, BEGIN = true }", "{ UNTIL = true, BEGIN = true }"),
        ("emacs", "oberon-mode.el", "\\\\(END\\\\|UNTIL\\\\|BEGIN\\\\)", "\\\\(UNTIL\\\\|BEGIN\\\\)"),
    ),
    (
        "each line is indented from the front of the text on", "indented_in_one_walk",
        ("nvim", "lua/oberon-bsp/indent.lua", "for at = lines.last, number - 1 do", "for at = 1, number - 1 do"),
        ("emacs", "oberon-mode.el", "(while (and oberon--known (< begin (caar oberon--known)))\n    (pop oberon--known))",
         "(ignore begin)\n  (setq oberon--known nil)"),
    ),
    (
        "what is open isn't reckoned anew behind a change", "indented_behind_change",
        ("nvim", "lua/oberon-bsp/indent.lua", "        known[buffer].last = math.min(known[buffer].last, first + 1)\n", ""),
        ("emacs", "oberon-mode.el", "  (add-hook 'before-change-functions #'oberon--forget-behind nil t)\n", ""),
    ),
    (
        "comments don't nest", "coloured",
        ("nvim", "syntax/oberon.vim", " contains=oberonComment", ""),
        ("emacs", "oberon-mode.el", '")(4n"', '")(4"', "oberon-mode.el", '"()1n"', '"()1"', "oberon-mode.el", '". 23n"', '". 23"'),
    ),
    (
        "columns of the command line are counted as those of the screen", "compile_leads_to_errors",
        ("emacs", "oberon-mode.el", "compilation-error-screen-columns nil)", "compilation-error-screen-columns t)"),
    ),
    (
        "a command has no help", "help_is_there",
        ("nvim", "doc/tags", ":OberonBspJoin\toberon-bsp.txt\t/*:OberonBspJoin*\n", ""),
    ),
    (
        "the list's files have no folders", "list_stays_beside_files",
        ("emacs", "oberon-bsp-list.el", "(name (file-relative-name file root))", "(name (file-name-nondirectory file))"),
    ),
    (
        "next-error takes the list's window", "list_stays_beside_files",
        ("emacs", "oberon-bsp-list.el", "(eq (window-buffer) (get-buffer oberon-bsp--list-name))", "nil"),
    ),
    (
        "next-error skips what follows an error that was mended", "next_error_skips_none",
        ("emacs", "oberon-bsp-list.el", "            (setq is-visited nil))", "            )"),
    ),
    (
        "the list's window doesn't show where next-error is", "next_error_skips_none",
        ("emacs", "oberon-bsp-list.el", "(set-window-point window (point))", "(ignore window)"),
    ),
    (
        "commands don't work in the list", "commands_from_list",
        ("nvim", "lua/oberon-bsp/commands.lua", "return member or listed and", "return member or false and"),
    ),
    (
        "commands have no keys in the list", "list_stays_beside_files",
        ("emacs", "oberon-bsp.el", "(make-composed-keymap oberon-bsp-mode-map\n                                         tabulated-list-mode-map)",
         "tabulated-list-mode-map"),
    ),
    (
        "jsonrpc's words stand in place of the package's", "own_words_stay",
        ("emacs", "oberon-bsp-server.el", "(inhibit-message t)", "(inhibit-message nil)"),
    ),
)


def edits_of(words):
    """The edits of a row, three words each."""
    return tuple(words[at : at + 3] for at in range(0, len(words), 3))


FAULTS = tuple(Fault(what, row[0], edits_of(row[1:]), test) for what, test, *rows in TABLE for row in rows)
