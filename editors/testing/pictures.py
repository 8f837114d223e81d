"""Makes editors/emacs.png and editors/nvim.png, which show the tutorial's project with errors."""
import contextlib
import os
import pathlib
import re
import shutil
import subprocess
import sys
import tempfile
import time

from .emacs import Emacs
from .neovim import Neovim
from .stage import Stage
from .waiting import EDITORS, ROOT, START_PATIENCE, environment, wait_until


def needed(*commands):
    for command, package in commands:
        if not shutil.which(command):
            sys.exit(f"the pictures need {command} (package {package})")


@contextlib.contextmanager
def screen(folder):
    """A screen of its own, as the environment of what is to be shown on it."""
    display = f":{200 + os.getpid() % 700}"
    server = subprocess.Popen(
        ["Xvfb", display, "-screen", "0", "800x500x24"], stdout=subprocess.DEVNULL, stderr=subprocess.DEVNULL
    )
    try:
        wait_until("there is no screen", lambda: os.path.exists(f"/tmp/.X11-unix/X{display[1:]}"))
        yield {**environment(folder), "DISPLAY": display}
    finally:
        server.terminate()
        server.wait()


def write_project(folder):
    """Writes the project of docs/TUTORIAL.md with two errors: a procedure of the library has another name than its
    users know, and the application means a procedure that there isn't."""
    text = (ROOT / "docs" / "TUTORIAL.md").read_text()
    for before, content in re.findall(r"([^\n]*)\n\n```(?:json|oberon)\n(.*?)```\n", text, re.DOTALL):
        name = re.findall(r"`([\w-]+\.(?:Mod|json))`", before)[-1]
        for old, new in ("Sum*(", "Total*("), ("END Sum;", "END Total;"), ("Out.Ln", "Out.Line"):
            content = content.replace(old, new)
        (folder / name).write_text(content)


def picture(kind, folder, program):
    """Makes a picture of the editor in a terminal: a module with errors, the state, and the list of all targets' errors."""
    stage = Stage(kind, folder, program)
    editor, project = stage.editor, folder / "project"
    project.mkdir()
    write_project(project)
    with screen(folder) as shown:
        terminal = subprocess.Popen(
            ["xterm", "-fa", "DejaVu Sans Mono", "-fs", "11", "-bg", "#fdf6e3", "-fg", "#073642", "-geometry", "80x24",
             "-e", *editor.words_in_terminal(program)],
            env=shown, cwd=project,
        )
        try:
            wait_until("the editor doesn't start", editor.is_ready, START_PATIENCE)
            editor.open(project / "Main.Mod")
            stage.sees_state(project / "Main.Mod", "2 errors")
            editor.command_in(project / "Main.Mod", editor.compile_all)
            stage.sees_state(project / "Main.Mod", "3 errors")
            editor.list_in_window(project / "Main.Mod")
            editor.go_to_error(project / "Main.Mod")
            # No one tells when all of it is drawn.
            time.sleep(5)
            file = EDITORS / f"{kind.command}.png"
            few = ["-colors", "32", "-define", "png:compression-level=9"]
            subprocess.run(["import", "-window", "root", "-trim", *few, f"png8:{file}"], env=shown, check=True)
        finally:
            terminal.terminate()
            terminal.wait()
            stage.clean_up()


def make_pictures(program):
    needed(("Xvfb", "xvfb"), ("xterm", "xterm"), ("import", "imagemagick"), ("emacs", "emacs-nox"), ("nvim", "neovim"))
    for kind in (Emacs, Neovim):
        with tempfile.TemporaryDirectory() as place:
            picture(kind, pathlib.Path(place).resolve(), program)
