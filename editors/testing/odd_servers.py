"""What the stand-in does and the program doesn't: it ends with each status, answers oddly, or not at all."""
from .common import STAND_IN_MARK, works_on
from .stage import WORKSPACE_FILE
from .waiting import Missed, wait_until

def statuses(stage):
    """a server that ends is told with what its status means, for each status, and the editor goes on"""
    editor = stage.start_with("status 0")
    _, module = stage.workspace()
    program = stage.folder / "program"
    meanings = (
        "it ended by itself", "its input ended", "its input was damaged", "reading its input failed",
        "writing its output failed", "it had no memory", "it doesn't know its command line",
        "an unknown status",
    )
    editor.open(module)
    text = program.read_text()
    for status, meaning in enumerate(meanings):
        if status > 0:
            program.write_text(text.replace("status 0", f"status {status}"))
            editor.command_in(module, editor.restart)
        stage.hears(f"ended with status {status}: {meaning}")
    program.write_text(text.replace("status 0", "fine"))
    editor.command_in(module, editor.restart)
    stage.sees_marks(module, STAND_IN_MARK)


def wrong_id(stage):
    """answers to no request are passed over, and those behind them count"""
    editor = stage.start_with("wrong-id")
    _, module = stage.workspace()
    editor.open(module)
    stage.sees_marks(module, STAND_IN_MARK)
    works_on(stage, module)


def refusal_without_id(stage):
    """errors with the id null are passed over, and the session goes on"""
    editor = stage.start_with("refusal")
    _, module = stage.workspace()
    editor.open(module)
    stage.sees_marks(module, STAND_IN_MARK)
    works_on(stage, module)


def answered_twice(stage):
    """of two answers to a request the first counts"""
    editor = stage.start_with("twice")
    _, module = stage.workspace()
    editor.open(module)
    stage.sees_marks(module, STAND_IN_MARK)
    works_on(stage, module)


def list_without_reset(stage):
    """a list that doesn't reset stands behind the empty one"""
    editor = stage.start_with("no-reset")
    _, module = stage.workspace()
    editor.open(module)
    stage.sees_marks(module, STAND_IN_MARK)
    works_on(stage, module)


def cut_frame(stage):
    """behind a frame that is cut either the server is left or an answer is missed; it is started again on request"""
    editor = stage.start_with("cut", timeout=3)
    _, module = stage.workspace()
    editor.open(module)
    stage.sees_marks(module, STAND_IN_MARK)
    for _ in range(3):
        editor.replace(module, "BEGIN", "BEGIN ")
        editor.save(module)
    stage.hears("is left, since its output is damaged", "no answer to buildTarget/compile in 3 seconds")
    editor.command_in(module, editor.restart)
    stage.sees_marks(module, STAND_IN_MARK)


def no_answer(stage):
    """an answer that is missed is told"""
    editor = stage.start_with("silent", timeout=1)
    _, module = stage.workspace()
    editor.open(module)
    stage.hears("no answer to build/initialize in 1 seconds")


def no_build_server(stage):
    """a program that is no build server is told"""
    editor = stage.start_with("no-server")
    _, module = stage.workspace()
    editor.open(module)
    stage.hears("no build server")
    stage.has_none_running()


def compile_replaced(stage):
    """a newer compile cancels the one that runs, and takes its targets along"""
    editor = stage.start_with("slow")
    folder, module = stage.workspace()
    other = folder / "Other.Mod"
    other.write_text(module.read_text())
    editor.open(module)
    wait_until("nothing is compiled", lambda: stage.received("buildTarget/compile"))
    editor.open(other)
    stage.sees_marks(other, STAND_IN_MARK)
    stage.sees_marks(module, STAND_IN_MARK)
    (first, _), (_, second) = stage.received("buildTarget/compile")
    if stage.received("$/cancelRequest") != [(None, {"id": first})]:
        raise Missed(f"cancelled was {stage.received('$/cancelRequest')}, and not {first}")
    if len(second["targets"]) != 2:
        raise Missed(f"compiled was {second['targets']}")


def reloaded(stage, mode, reloads, sessions):
    editor = stage.start_with(mode)
    folder, module = stage.workspace()
    editor.open(module)
    stage.sees_marks(module, STAND_IN_MARK)
    editor.open(folder / WORKSPACE_FILE)
    editor.replace(folder / WORKSPACE_FILE, "{", "{ ")
    editor.save(folder / WORKSPACE_FILE)
    wait_until("the module isn't compiled again", lambda: len(stage.received("buildTarget/compile")) == 2)
    stage.sees_marks(module, STAND_IN_MARK)
    counts = [len(stage.received(method)) for method in ("workspace/reload", "build/initialize")]
    if counts != [reloads, sessions]:
        raise Missed(f"reloads and sessions were {counts}")


def reloaded_in_session(stage):
    """the workspace file is reloaded when it is saved, where the server offers that"""
    reloaded(stage, "reloads", 1, 1)


def reload_unknown(stage):
    """the session is opened anew where the server offers a reload that it doesn't know"""
    reloaded(stage, "fine", 1, 2)


def reload_not_offered(stage):
    """the session is opened anew where the server offers no reload"""
    reloaded(stage, "no-reload", 0, 2)


TESTS = (
    statuses,
    wrong_id,
    refusal_without_id,
    answered_twice,
    list_without_reset,
    cut_frame,
    no_answer,
    no_build_server,
    compile_replaced,
    reloaded_in_session,
    reload_unknown,
    reload_not_offered,
)
