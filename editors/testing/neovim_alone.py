"""What Neovim alone has: its help, its health, and a compiler."""
import shutil

from .common import GREETING, expect
from .lists import USER, library_and_user
from .stage import WORKSPACE_FILE
from .waiting import EDITORS, Missed


def help_is_there(stage):
    """:help finds the package and each of its commands, and its tags are those of its text"""
    editor = stage.start()
    names = editor.ask("return vim.tbl_filter(function(it) return it:match('^OberonBsp') end, "
                       "vim.tbl_keys(vim.api.nvim_get_commands({})))")
    expect(len(names), 6, "commands")
    for word in ("oberon-bsp", *(f":{name}" for name in names)):
        editor.do(f"vim.cmd('help {word}')")
        if f"*{word}*" not in editor.ask("return vim.fn.getline('.')"):
            raise Missed(f":help {word} doesn't lead to it")
    copy = shutil.copytree(EDITORS / "nvim" / "doc", stage.folder / "doc")
    editor.do(f"vim.cmd('helptags {copy}')")
    expect((EDITORS / "nvim" / "doc" / "tags").read_text(), (copy / "tags").read_text(), "the tags")


def health_is_told(stage):
    """:checkhealth names the program and the workspace, and warns where it is refused"""
    editor = stage.start()
    folder, module = stage.workspace()
    editor.open(module)
    stage.sees_state(module, "clean")
    refused, other = stage.workspace("refused")
    (refused / WORKSPACE_FILE).write_text("{}")
    editor.open(other)
    stage.sees_state(other, "refused (workspace refused: BadField version)")
    editor.do("vim.cmd('checkhealth oberon-bsp')")
    said = editor.ask("return table.concat(vim.api.nvim_buf_get_lines(0, 0, -1, false), '\\n')").upper()
    for part in (f"OK the program is {stage.program}", f"OK {folder}: clean", f"WARNING {refused}: refused"):
        if part.upper() not in said.replace("OK: ", "OK ").replace("WARNING: ", "WARNING "):
            raise Missed(f"the health is {said}, without {part}")


def commands_from_list(stage):
    """commands in the window of the list of errors are for the list's workspace"""
    editor = stage.start()
    library, user = library_and_user(stage)
    user.write_text(USER.replace("Add", "Plus"))
    editor.open(library)
    stage.sees_state(library, "clean")
    editor.list_in_window(library)
    editor.do("vim.cmd('OberonBspCompileAll')")
    stage.sees_state(library, "1 error")
    expect([row[0] for row in editor.rows()], ["User.Mod"], "the files in the list")


def compiler_finds_errors(stage):
    """:make with the package's compiler lists the errors of the command line"""
    editor = stage.start()
    folder, module = stage.workspace()
    module.write_text(module.read_text().replace(GREETING, "$"))
    editor.open(module)
    program = f"--program {stage.program} {folder}"
    editor.do(f"vim.cmd('compiler! oberon-check') vim.cmd('enew') vim.cmd([[silent make! {program}]])")
    expect(editor.rows(), [["Hello.Mod", 5, 3, "error", "bad character [badCharacter]"]], "listed")


TESTS = (help_is_there, health_is_told, commands_from_list, compiler_finds_errors)
