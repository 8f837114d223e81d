"""What Emacs alone has: its package, its own lists of errors, and other backends of Flymake."""
import subprocess
import tempfile

from .common import GREETING, WIDE, expect
from .lists import LIBRARY, library_and_user, rename_export
from .stage import WORKSPACE_FILE
from .waiting import EDITORS, ROOT, wait_until


def package_installs(stage):
    """the folder installs as a package, whose modes are there then"""
    with tempfile.TemporaryDirectory() as place:
        code = f"""(progn (require 'package) (setq package-user-dir "{place}") (package-initialize)
            (package-install-file "{EDITORS}/emacs/")
            (require 'oberon-bsp)
            (princ (list (package-installed-p 'oberon-bsp) (autoloadp (symbol-function 'oberon-bsp-global-mode))
                         (assoc-default "A.Mod" auto-mode-alist 'string-match))))"""
        words = ["emacs", "-Q", "--batch", "--eval", code]
        ran = subprocess.run(words, capture_output=True, text=True, env=stage.environment())
        expect(ran.stdout.splitlines()[-1:], ["(t nil oberon-mode)"], f"the package ({ran.stderr})")


def next_error_leads_on(stage):
    """next-error goes through the errors of the workspace, also those of files that aren't open"""
    editor = stage.start()
    library, user = library_and_user(stage)
    editor.open(library)
    rename_export(editor, library, "Add", "Plus")
    editor.command_in(library, editor.compile_all)
    stage.sees_state(library, "1 error")
    editor.open(library)
    here = "(with-current-buffer (window-buffer) (vector (file-name-nondirectory buffer-file-name) (line-number-at-pos)))"
    expect(editor.ask(f"(progn (next-error) {here})"), ["User.Mod", 4], "next-error leads to")


def next_error_skips_none(stage):
    """behind an error that was mended next-error leads to the one below it, and the list's window shows where it is"""
    stage.start_in_terminal()
    editor = stage.editor
    _, module = stage.workspace()
    module.write_text("MODULE Hello;\n" + "$\n" * 40 + "END Hello.\n")
    editor.open(module)
    stage.sees_state(module, "40 errors")
    editor.list_in_window(module)
    window = '(get-buffer-window "*oberon-bsp errors*")'
    lines = f"""(vector (with-current-buffer (find-buffer-visiting {editor.text(module)}) (line-number-at-pos))
        (with-selected-window {window} (line-number-at-pos)) (if (pos-visible-in-window-p nil {window}) t :false))"""
    step = lambda count: editor.ask(f"(with-current-buffer (window-buffer) (next-error {count}) (redisplay) {lines})")
    expect(step(30), [31, 30, True], "the thirtieth")
    editor.replace(module, "$\n" * 29, "\n" + "$\n" * 28)
    editor.save(module)
    stage.sees_state(module, "39 errors")
    expect(step(1)[:2], [32, 30], "the next one behind one that was mended above")
    editor.do(editor.inside(module, "(goto-char (point-min)) (forward-line 31) (delete-char 1)"))
    editor.save(module)
    stage.sees_state(module, "38 errors")
    expect(step(1)[:2], [33, 30], "the next one behind one that was mended")
    editor.do('(with-current-buffer "*scratch*" (setq overlay-arrow-position (point-marker)))')
    editor.do(editor.inside(module, "(goto-char (point-min)) (forward-line 32) (delete-char 1)"))
    editor.save(module)
    stage.sees_state(module, "37 errors")
    expect(editor.ask("(buffer-name (marker-buffer overlay-arrow-position))"), "*scratch*", "the arrow is in")


def list_stays_beside_files(stage):
    """the list names files as they stand below the workspace, has the package's keys, and stays in its window"""
    stage.start_in_terminal()
    editor = stage.editor
    folder, _ = stage.workspace()
    (folder / "deep").mkdir()
    file = folder / WORKSPACE_FILE
    file.write_text(file.read_text().replace("Hello.Mod", "deep/Hello.Mod"))
    module = folder / "deep" / "Hello.Mod"
    module.write_text("MODULE Hello;\n$\nEND Hello.\n")
    editor.open(module)
    stage.sees_state(module, "1 error")
    row = ["deep/Hello.Mod", 2, 1, "error", "bad character [badCharacter]"]
    expect(editor.listed(module), [row], "the list with the file open")
    list_window = '(get-buffer-window "*oberon-bsp errors*")'
    keys = '(symbol-name (key-binding (kbd "C-c C-a")))'
    editor.do(f"(select-window {list_window})")
    expect(editor.ask(f'(with-current-buffer "*oberon-bsp errors*" {keys})'), "oberon-bsp-compile-all", "C-c C-a")
    shown = f"(vector (buffer-name (window-buffer)) (if {list_window} t :false))"
    expect(editor.ask(f"(with-current-buffer (window-buffer) (next-error) {shown})"), ["Hello.Mod", True], "windows")


def own_words_stay(stage):
    """what is said of a new server isn't replaced by what the end of the old one means to jsonrpc"""
    stage.start_in_terminal()
    editor = stage.editor
    folder, module = stage.workspace()
    editor.open(module)
    stage.sees_state(module, "clean")
    first = stage.server()
    editor.do("(setq seen nil set-message-function (lambda (text) (push (substring-no-properties text) seen) nil))")
    (folder / WORKSPACE_FILE).write_text("{}")
    editor.command_in(module, editor.restart)
    stage.sees_state(module, "refused (workspace refused: BadField version)")
    wait_until("the first server still runs", lambda: first not in stage.servers())
    wait_until("its end isn't noticed", lambda: any("exited with status 0" in line for line in editor.lines()))
    refusal = "oberon-bsp: not opened: workspace refused: BadField version"
    expect(editor.ask("(vconcat (seq-remove #'string-empty-p seen))")[:1], [refusal], "shown last is")


def flymake_lists_project(stage):
    """Flymake's list of the project has the errors of files that aren't open"""
    editor = stage.start()
    library, user = library_and_user(stage)
    editor.open(library)
    rename_export(editor, library, "Add", "Plus")
    editor.command_in(library, editor.compile_all)
    stage.sees_state(library, "1 error")
    code = "(vconcat (mapcar #'flymake-diagnostic-text (flymake--project-diagnostics (project-current))))"
    expect(editor.ask(editor.inside(library, code)), ["unknown name: Add"], "Flymake's list")


def other_backends_stay(stage):
    """another backend of Flymake stays beside this one, also when the mode is turned off"""
    editor = stage.start()
    _, module = stage.workspace()
    module.write_text(module.read_text().replace(GREETING, "$"))
    editor.do("""(add-hook 'find-file-hook (lambda ()
        (add-hook 'flymake-diagnostic-functions (lambda (report &rest _) (funcall report nil)) nil t)))""")
    editor.open(module)
    stage.sees_state(module, "1 error")
    count = "(length (remq t flymake-diagnostic-functions))"
    expect(editor.ask(editor.inside(module, count)), 2, "backends")
    expect(editor.ask(editor.inside(module, f"(progn (oberon-bsp-mode -1) {count})")), 1, "backends without the mode")


def compile_leads_to_errors(stage):
    """M-x compile with tools/oberon-check finds errors, and next-error leads to one behind a tab and wide characters"""
    editor = stage.start()
    folder, module = stage.workspace()
    module.write_text(module.read_text().replace("  " + GREETING, f'\tOut.String("\u6f22{WIDE}") $;'))
    editor.open(module)
    command = f"{ROOT}/tools/oberon-check --program {stage.program} {folder}"
    editor.do(f"(require 'compile) (compile {editor.text(command)})")
    ended = '(if (get-buffer-process "*compilation*") :false t)'
    wait_until("the compilation doesn't end", lambda: editor.ask(ended))
    here = "(vector (buffer-name) (buffer-substring-no-properties (point) (line-end-position)))"
    led = editor.ask(f"(progn (next-error) (with-current-buffer (window-buffer) {here}))")
    expect(led, ["Hello.Mod", "$;"], "next-error leads to")


def mode_of_its_own(stage):
    """modules have a mode for programs, with a list of procedures, keys and a menu"""
    editor = stage.start()
    folder, _ = stage.workspace()
    (folder / "Library.Mod").write_text(LIBRARY)
    editor.open(folder / "Library.Mod")
    ask = lambda code: editor.ask(editor.inside(folder / "Library.Mod", code))
    mode = "(vector (symbol-name major-mode) (if (derived-mode-p 'prog-mode) t :false))"
    expect(ask(mode), ["oberon-mode", True], "the mode")
    procedures = "(progn (require 'imenu) (vconcat (mapcar #'car (imenu-default-create-index-function))))"
    expect(ask(procedures), ["Add"], "the procedures")
    keys = {"C-c C-c": "compile", "C-c C-a": "compile-all", "C-c C-l": "errors", "C-c C-r": "restart"}
    for key, command in keys.items():
        expect(ask(f'(symbol-name (key-binding (kbd "{key}")))'), f"oberon-bsp-{command}", key)
    expect(ask("(if (keymapp (key-binding [menu-bar Oberon])) t :false)"), True, "there is a menu")


TESTS = (
    package_installs,
    next_error_leads_on,
    next_error_skips_none,
    list_stays_beside_files,
    own_words_stay,
    flymake_lists_project,
    other_backends_stay,
    compile_leads_to_errors,
    mode_of_its_own,
)
