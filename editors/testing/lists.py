"""What is compiled, and what stands in the list of errors: of several files, targets and pieces."""
import json
import time

from .common import GREETING, STAND_IN_MARK, WIDE_FAULT, expect, spoil
from .stage import WORKSPACE_FILE
from .waiting import wait_until

LIBRARY = "MODULE Library;\nPROCEDURE Add*;\nEND Add;\nEND Library.\n"
USER = "MODULE User;\nIMPORT Library;\nBEGIN\n  Library.Add\nEND User.\n"
USERS_FAULT = [["  Library.", "Add", "unknown name: Add"]]


def library_and_user(stage):
    """A workspace of a library and an application that stands on it."""
    folder = stage.folder / "pair"
    folder.mkdir()
    targets = [
        {"name": "library", "kind": "library", "modules": ["Library.Mod"]},
        {"name": "user", "kind": "application", "modules": ["User.Mod"], "dependencies": ["library"], "main": "User"},
    ]
    (folder / WORKSPACE_FILE).write_text(json.dumps({"version": 1, "targets": targets}))
    (folder / "Library.Mod").write_text(LIBRARY)
    (folder / "User.Mod").write_text(USER)
    return folder / "Library.Mod", folder / "User.Mod"


def rename_export(editor, library, old, new):
    editor.replace(library, f"PROCEDURE {old}*", f"PROCEDURE {new}*")
    editor.replace(library, f"END {old}", f"END {new}")
    editor.save(library)


def dependents_compiled(stage):
    """an error that a library's change means for a user that is open is shown when the library is saved, and goes"""
    editor = stage.start()
    library, user = library_and_user(stage)
    editor.open(user)
    editor.open(library)
    stage.sees_marks(user, [])
    rename_export(editor, library, "Add", "Plus")
    stage.sees_marks(user, USERS_FAULT)
    rename_export(editor, library, "Plus", "Add")
    stage.sees_marks(user, [])


def every_target_compiled(stage):
    """a command compiles every target, also those of which no file is open"""
    editor = stage.start()
    library, user = library_and_user(stage)
    editor.open(library)
    rename_export(editor, library, "Add", "Plus")
    stage.sees_state(library, "clean")
    editor.command_in(library, editor.compile_all)
    stage.hears("errors in User.Mod")
    stage.sees_state(library, "1 error")
    rows = [row[:2] + row[3:] for row in editor.listed(library)]
    expect(rows, [["User.Mod", 4, "error", "unknown name: Add [noName]"]], "listed")


def open_list_renewed(stage):
    """a list of errors that is open is brought up to date"""
    editor = stage.start()
    _, module = stage.workspace()
    editor.open(module)
    spoil(editor, module)
    stage.sees_marks(module, WIDE_FAULT)
    expect(editor.listed(module), [["Hello.Mod", 5, 19, "error", "bad character [badCharacter]"]], "listed")
    editor.replace(module, " $;", ";")
    editor.save(module)
    stage.sees_rows([])


def errors_and_warnings(stage):
    """errors are shown as errors and warnings as warnings, in the text, the list and the state"""
    editor = stage.start()
    _, module = stage.workspace()
    module.write_text("MODULE Hello;\nIMPORT Out;\nBEGIN\n  x := 1\nEND Hello.\n")
    editor.open(module)
    stage.sees_state(module, "1 error 1 warning")
    expect(editor.kinds(module), ["warning", "error"], "the kinds of the marks")
    expect([row[3] for row in editor.listed(module)], ["warning", "error"], "the kinds in the list")


def equal_lists_once(stage):
    """equal lists of two targets are shown once"""
    editor = stage.start()
    folder, module = stage.workspace()
    workspace = json.loads((folder / WORKSPACE_FILE).read_text())
    workspace["targets"].append({"name": "again", "kind": "library", "modules": ["Hello.Mod"]})
    (folder / WORKSPACE_FILE).write_text(json.dumps(workspace))
    editor.open(module)
    spoil(editor, module)
    stage.sees_marks(module, WIDE_FAULT)
    expect(len(editor.listed(module)), 1, "errors in the list")
    stage.sees_state(module, "1 error")


def many_pieces(stage):
    """a list that comes in three pieces is shown whole and in order"""
    editor = stage.start()
    _, module = stage.workspace()
    module.write_text("MODULE Hello;\n" + 250 * "$\n" + "END Hello.\n")
    editor.open(module)
    stage.sees_state(module, "250 errors")
    expect([row[1] for row in editor.listed(module)], list(range(2, 252)), "the lines in the list")
    expect(len(editor.marks(module)), 250, "the marks")


def saved_elsewhere(stage):
    """a file that is saved into another workspace is looked at there, and its old server ends"""
    editor = stage.start()
    _, module = stage.workspace()
    other = stage.workspace("other")[1]
    other.unlink()
    editor.open(module)
    stage.sees_state(module, "clean")
    first = stage.server()
    editor.replace(module, GREETING, "$")
    editor.save_as(module, other)
    stage.sees_marks(other, [["  ", "$", "bad character"]])
    wait_until("the first server still runs", lambda: first not in stage.servers())


def renamed(stage):
    """a buffer that gets another name is looked at by that name when it is saved"""
    editor = stage.start()
    folder, module = stage.workspace()
    workspace = json.loads((folder / WORKSPACE_FILE).read_text())
    workspace["targets"][0]["modules"].append("Other.Mod")
    (folder / WORKSPACE_FILE).write_text(json.dumps(workspace))
    editor.open(folder / WORKSPACE_FILE)
    editor.open(module)
    editor.rename(module, folder / "Other.Mod")
    editor.save(folder / "Other.Mod")
    stage.sees_marks(folder / "Other.Mod", [["MODULE ", "Hello", "module name differs from the file"]])


def late_publications(stage):
    """what a server publishes that was left isn't shown"""
    editor = stage.start_with("late")
    _, module = stage.workspace()
    editor.open(module)
    stage.sees_marks(module, STAND_IN_MARK)
    compiled = lambda count: lambda: len(stage.received("buildTarget/compile")) == count
    editor.command_in(module, editor.restart)
    wait_until("the next server compiles nothing", compiled(2))
    time.sleep(3)
    editor.command_in(module, editor.compile)
    wait_until("the module isn't compiled again", compiled(3))
    stage.sees_state(module, "1 error")
    stage.sees_marks(module, STAND_IN_MARK)
    expect(len(editor.listed(module)), 1, "errors in the list")


TESTS = (
    dependents_compiled,
    every_target_compiled,
    open_list_renewed,
    errors_and_warnings,
    equal_lists_once,
    many_pieces,
    saved_elsewhere,
    renamed,
    late_publications,
)
