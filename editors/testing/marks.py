"""Where errors are shown in the text and in the list."""
import json
import time

from .common import GREETING, WIDE, WIDE_FAULT, spoil
from .stage import WORKSPACE_FILE
from .waiting import Missed

def error_shown_and_mended(stage):
    """an error behind a character outside the basic plane is shown when it is saved, and goes when it is mended"""
    editor = stage.start()
    _, module = stage.workspace()
    editor.open(module)
    spoil(editor, module)
    stage.sees_marks(module, WIDE_FAULT)
    editor.replace(module, " $;", ";")
    editor.save(module)
    stage.sees_marks(module, [])


def error_shown_on_open(stage):
    """an error is shown when the file is opened, in a folder whose name an address has to escape"""
    editor = stage.start()
    _, module = stage.workspace(f"a {WIDE} 100% #1")
    module.write_text(module.read_text().replace(GREETING, f'Out.String("{WIDE}") $;'))
    editor.open(module)
    stage.sees_marks(module, WIDE_FAULT)


def error_behind_links(stage):
    """an error is shown in a module that is a link, in a workspace that is opened by way of a link"""
    editor = stage.start()
    folder, module = stage.workspace()
    (stage.folder / "link").symlink_to(folder)
    module.rename(stage.folder / "Elsewhere.Mod")
    module.symlink_to(stage.folder / "Elsewhere.Mod")
    linked = stage.folder / "link" / "Hello.Mod"
    editor.open(linked)
    spoil(editor, linked)
    stage.sees_marks(linked, WIDE_FAULT)
    if any("errors in" in line for line in editor.lines()):
        raise Missed("the file isn't known to be open")


def marks_stay_with_text(stage):
    """a mark stays at its text while the text above it is changed and not saved"""
    editor = stage.start()
    _, module = stage.workspace()
    editor.open(module)
    spoil(editor, module)
    stage.sees_marks(module, WIDE_FAULT)
    editor.replace(module, "BEGIN", "(* one *)\n(* two *)\nBEGIN")
    editor.command_in(module, editor.compile)
    time.sleep(1)
    stage.sees_marks(module, WIDE_FAULT)
    editor.save(module)
    stage.sees_marks(module, WIDE_FAULT)


def byte_order_mark_and_line_ends(stage):
    """columns are right behind a byte order mark, and lines where carriage returns end them"""
    editor = stage.start()
    _, module = stage.workspace()
    text = module.read_text()
    module.write_bytes(("\ufeff" + text.replace("Hello;", "$ Hello;", 1).replace("\n", "\r\n")).encode())
    editor.open(module)
    stage.sees_marks(module, [["MODULE ", "$", "bad character"]])
    editor.close(module)
    lone = text.replace("BEGIN\n", "BEGIN (* \r *) $\n", 1)
    module.write_bytes(lone.encode())
    editor.open(module)
    stage.sees_marks(module, [["BEGIN (* \r *) ", "$", "bad character"]])


def error_of_unopened_file(stage):
    """an error in a file that isn't open is told and listed, and the list leads there"""
    editor = stage.start()
    folder, module = stage.workspace()
    workspace = json.loads((folder / WORKSPACE_FILE).read_text())
    workspace["targets"][0]["modules"].append("Other.Mod")
    (folder / WORKSPACE_FILE).write_text(json.dumps(workspace))
    (folder / "Other.Mod").write_text(f"MODULE Other;\n(* {WIDE} *) $\nEND Other.\n")
    editor.open(module)
    stage.hears("errors in Other.Mod")
    stage.sees_marks(module, [])
    rows = editor.listed(module)
    if [row[:2] + row[3:] for row in rows] != [["Other.Mod", 2, "error", "bad character [badCharacter]"]]:
        raise Missed(f"listed is {rows}")
    visited = editor.visit_first()
    if visited != ["Other.Mod", "$"]:
        raise Missed(f"the list leads to {visited}")
    if editor.listed(folder / "Other.Mod") != [["Other.Mod", 2, 9, "error", "bad character [badCharacter]"]]:
        raise Missed(f"listed is {rows}")


TESTS = (
    error_shown_and_mended,
    error_shown_on_open,
    error_behind_links,
    marks_stay_with_text,
    byte_order_mark_and_line_ends,
    error_of_unopened_file,
)
