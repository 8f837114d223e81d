"""The state that is told, and how servers and editors end."""
import os
import signal

from .common import GREETING, STAND_IN_MARK, expect
from .stage import WORKSPACE_FILE
from .waiting import Missed, wait_until


def state_of_files(stage):
    """the state tells a clean file, one with an error, one in no target and one without a workspace, in its line too"""
    editor = stage.start()
    folder, module = stage.workspace()
    (folder / "Other.Mod").write_text("MODULE Other;\nEND Other.\n")
    (stage.folder / "Alone.Mod").write_text("MODULE Alone;\nEND Alone.\n")
    editor.open(module)
    stage.sees_state(module, "clean")
    stage.hears("no errors (1 target)")
    if "clean" not in editor.state_line(module):
        raise Missed(f"the line is {editor.state_line(module)}")
    editor.open(folder / "Other.Mod")
    stage.sees_state(folder / "Other.Mod", "in no target")
    editor.open(stage.folder / "Alone.Mod")
    stage.sees_state(stage.folder / "Alone.Mod", "off")
    editor.replace(module, GREETING, "$")
    editor.save(module)
    stage.sees_state(module, "1 error")


def state_of_refusals(stage):
    """the state tells why a workspace file is refused, when it is opened and when it is read again"""
    editor = stage.start()
    folder, module = stage.workspace()
    file = folder / WORKSPACE_FILE
    good = file.read_text()
    file.write_text(good.replace('"version": 1', '"version": 2'))
    editor.open(module)
    stage.sees_state(module, "refused (workspace refused: BadField version)")
    editor.open(file)
    editor.replace(file, '"version": 2', '"version": 1')
    editor.save(file)
    stage.sees_state(module, "clean")
    editor.replace(file, '"version": 1', '"version": 3')
    editor.save(file)
    stage.sees_state(module, "failed (workspace refused: BadField version)")


def state_of_servers(stage):
    """the state tells how a server ended"""
    editor = stage.start_with("status 3")
    _, module = stage.workspace()
    editor.open(module)
    stage.sees_state(module, "ended (status 3)")
    program = stage.folder / "program"
    program.write_text(program.read_text().replace("status 3", "silent"))
    editor.command_in(module, editor.restart)
    stage.sees_state(module, "starting")
    os.kill(stage.server(), signal.SIGKILL)
    stage.sees_state(module, "ended (signal 9)")


def state_without_program(stage):
    """the state tells that there is no program"""
    editor = stage.start(stage.folder / "nothing")
    _, module = stage.workspace()
    editor.open(module)
    stage.sees_state(module, "ended (no program)")


def state_of_checks(stage):
    """the state tells how many checks are done of those that were begun"""
    editor = stage.start_with("checks")
    _, module = stage.workspace()
    editor.open(module)
    stage.sees_state(module, "checking 1/2")


def workspace_made_later(stage):
    """a workspace file that is made later takes in the files that it holds"""
    editor = stage.start()
    folder, module = stage.workspace()
    text = (folder / WORKSPACE_FILE).read_text()
    (folder / WORKSPACE_FILE).unlink()
    (folder / "draft").write_text(text)
    editor.open(module)
    stage.sees_state(module, "off")
    editor.open(folder / "draft")
    editor.save_as(folder / "draft", folder / WORKSPACE_FILE)
    stage.sees_state(module, "clean")


def other_ending(stage):
    """a command joins a file of another ending"""
    editor = stage.start()
    folder, module = stage.workspace()
    file = folder / WORKSPACE_FILE
    file.write_text(file.read_text().replace("Hello.Mod", "Hello.ob"))
    other = module.rename(folder / "Hello.ob")
    other.write_text(other.read_text().replace(GREETING, "$"))
    editor.open(other)
    editor.join(other)
    stage.sees_marks(other, [["  ", "$", "bad character"]])


def shutdown_on_close(stage):
    """a server is told to shut down when its last file is closed"""
    editor = stage.start_with("fine")
    _, module = stage.workspace()
    editor.open(module)
    stage.sees_marks(module, STAND_IN_MARK)
    editor.close(module)
    stage.has_none_running()
    expect(len(stage.received("build/shutdown")), 1, "shutdowns")


def shutdown_on_quit(stage):
    """a server is told to shut down when the editor is quit"""
    editor = stage.start_with("fine")
    _, module = stage.workspace()
    editor.open(module)
    stage.sees_marks(module, STAND_IN_MARK)
    editor.quit()
    stage.has_ended()
    expect(len(stage.received("build/shutdown")), 1, "shutdowns")


def ended_in_terminal(stage, end):
    """Sees that an editor with a list of errors ends, with its servers, when its terminal does something. A list of one
    error would be no trial: Neovim 0.7 that ends by a signal empties that too."""
    terminal = stage.start_in_terminal()
    editor = stage.editor
    _, module = stage.workspace()
    module.write_text(module.read_text().replace(GREETING, "$ $ $"))
    editor.open(module)
    stage.sees_state(module, "3 errors")
    editor.list_in_window(module)
    end(terminal)
    stage.has_ended()


def ended_by_hangup(stage):
    """an editor ends with its servers when its terminal is closed, also with a list of errors"""
    ended_in_terminal(stage, lambda terminal: terminal.close())


def ended_by_termination(stage):
    """an editor ends with its servers when it is terminated, also with a list of errors"""
    ended_in_terminal(stage, lambda terminal: terminal.process.send_signal(signal.SIGTERM))


def eighty_columns(stage):
    """in 80 columns no message stops the editor until a key is pressed"""
    terminal = stage.start_in_terminal()
    editor = stage.editor
    folder, module = stage.workspace("a_workspace_with_a_long_name_that_is_shown_here_and_there")
    long = folder / "AModuleWithANameThatIsLongerThanAnyOneWouldGiveToAModule.Mod"
    long.write_text("MODULE A;\nEND A.\n")
    editor.open(module)
    stage.sees_state(module, "clean")
    editor.open(long)
    stage.sees_state(long, "in no target")
    editor.open(folder / WORKSPACE_FILE)
    editor.replace(folder / WORKSPACE_FILE, '"name": "', '"name": "!')
    editor.save(folder / WORKSPACE_FILE)
    stage.sees_state(module, "failed (workspace refused: BadField targets[0].name)")
    os.kill(stage.server(), signal.SIGKILL)
    stage.sees_state(module, "ended (signal 9)")
    editor.save(long)
    editor.command_in(module, editor.compile)
    wait_until("nothing is said of the server", lambda: any("no server looks" in line for line in editor.lines()))
    if b"Press ENTER" in terminal.written:
        raise Missed("the editor stopped at a message")


TESTS = (
    state_of_files,
    state_of_refusals,
    state_of_servers,
    state_without_program,
    state_of_checks,
    workspace_made_later,
    other_ending,
    shutdown_on_close,
    shutdown_on_quit,
    ended_by_hangup,
    ended_by_termination,
    eighty_columns,
)
