"""Which server serves which files, and what is told of a workspace that is refused."""
import os
import signal

from .common import GREETING, WIDE_FAULT, error_shown_on, spoil
from .stage import WORKSPACE_FILE
from .waiting import Missed

def one_server_until_last_file(stage):
    """the files of a workspace share a server, which ends with the last of them"""
    editor = stage.start()
    folder, module = stage.workspace()
    editor.open(module)
    server = stage.server()
    editor.open(folder / WORKSPACE_FILE)
    if stage.servers() != [server]:
        raise Missed("another server was started")
    editor.close(module)
    if stage.servers() != [server]:
        raise Missed("the server ended before the last file was closed")
    editor.close(folder / WORKSPACE_FILE)
    stage.has_none_running()


def file_read_again(stage):
    """a file that was changed outside and is read again is compiled, and its server goes on"""
    editor = stage.start()
    _, module = stage.workspace()
    editor.open(module)
    server = stage.server()
    module.write_text(module.read_text().replace(GREETING, "$"))
    editor.read_again(module)
    stage.sees_marks(module, [["  ", "$", "bad character"]])
    if stage.servers() != [server]:
        raise Missed("another server was started")


def dead_server_started_again(stage):
    """a server that dies is told, what it showed goes, and it is started again on request"""
    editor = stage.start()
    _, module = stage.workspace()
    editor.open(module)
    spoil(editor, module)
    stage.sees_marks(module, WIDE_FAULT)
    os.kill(stage.server(), signal.SIGKILL)
    stage.hears("ended by signal 9")
    stage.sees_marks(module, [])
    editor.command_in(module, editor.compile)
    stage.hears("no server looks at Hello.Mod")
    editor.command_in(module, editor.restart)
    stage.sees_marks(module, WIDE_FAULT)


def broken_workspace_mended(stage):
    """a broken workspace file is told as the server refuses it, and is opened when it is mended and saved"""
    editor = stage.start()
    folder, module = stage.workspace()
    file = folder / WORKSPACE_FILE
    file.write_text(file.read_text().replace('"version": 1', '"version": 2'))
    module.write_text(module.read_text().replace(GREETING, "$"))
    editor.open(module)
    stage.hears("not opened: workspace refused: BadField version")
    editor.open(file)
    editor.replace(file, '"version": 2', '"version": 1')
    editor.save(file)
    stage.sees_marks(module, [["  ", "$", "bad character"]])


def workspace_file_saved(stage):
    """a target that is added to the workspace file counts when that is saved"""
    editor = stage.start()
    folder, module = stage.workspace()
    other = folder / "Other.Mod"
    other.write_text("MODULE Other;\n$\nEND Other.\n")
    editor.open(other)
    stage.hears("Other.Mod is in no target of oberon-build.json")
    file = folder / WORKSPACE_FILE
    editor.open(file)
    editor.replace(file, '"Hello.Mod"', '"Hello.Mod", "Other.Mod"')
    editor.save(file)
    stage.sees_marks(other, [["", "$", "bad character"]])


def no_workspace_file(stage):
    """a file with no workspace file above it is told, and the editor goes on"""
    editor = stage.start()
    alone = stage.folder / "Alone.Mod"
    alone.write_text("MODULE Alone;\nEND Alone.\n")
    editor.open(alone)
    stage.hears("there is no oberon-build.json above ")
    editor.replace(alone, "END", " END")
    editor.save(alone)
    error_shown_on(stage)


def no_program(stage):
    """a program that isn't there is told, and the editor goes on"""
    editor = stage.start(stage.folder / "nothing")
    _, module = stage.workspace()
    editor.open(module)
    stage.hears("can't be started")
    editor.replace(module, GREETING, "$")
    editor.save(module)
    stage.hears("no server looks at Hello.Mod")
    stage.sees_marks(module, [])


TESTS = (
    one_server_until_last_file,
    file_read_again,
    dead_server_started_again,
    broken_workspace_mended,
    workspace_file_saved,
    no_workspace_file,
    no_program,
)
