"""A place where one editor runs over workspaces, and what a person would see there."""
import contextlib
import json
import os
import pathlib
import shutil
import signal
import subprocess
import sys

from .terminal import Terminal
from .waiting import EDITORS, PATIENCE, START_PATIENCE, Missed, environment, wait_until

WORKSPACE = EDITORS / "workspace"
STAND_IN = EDITORS / "stand_in"
WORKSPACE_FILE = "oberon-build.json"


def processes_over(folder):
    """The processes that have the folder in their command line."""
    found = {}
    for entry in pathlib.Path("/proc").iterdir():
        if entry.name.isdigit():
            with contextlib.suppress(OSError):
                words = (entry / "cmdline").read_bytes().split(b"\0")
                if any(str(folder).encode() in word for word in words):
                    found[int(entry.name)] = words
    return found


class Stage:
    """An editor that runs, and a folder for workspaces."""

    def __init__(self, kind, folder, program):
        self.folder, self.program = folder, program
        (folder / "home").mkdir(mode=0o700)
        self.editor = kind(folder / "home")
        self.process = None

    def environment(self):
        return environment(self.folder / "home")

    def start(self, program=None, timeout=PATIENCE):
        self.process = self.editor.start(program or self.program, timeout)
        wait_until("the editor doesn't start", self.editor.is_ready, START_PATIENCE)
        return self.editor

    def start_in_terminal(self):
        """Starts the editor in a terminal, which is returned."""
        words = self.editor.words_in_terminal(self.program)
        terminal = Terminal(words, self.environment())
        self.process = terminal.process
        wait_until("the editor doesn't start", self.editor.is_ready, START_PATIENCE)
        return terminal

    def start_with(self, mode, timeout=PATIENCE):
        """Starts the editor with a stand-in for the server."""
        program = self.folder / "program"
        program.write_text(
            f'#!/bin/sh\nexec {sys.executable} {STAND_IN} "{mode}" "{self.folder}/log" "$@"\n'
        )
        program.chmod(0o755)
        return self.start(program, timeout)

    def received(self, method):
        """The params of what the stand-in received of a method, with the ids."""
        log = self.folder / "log"
        messages = map(json.loads, log.read_text().splitlines() if log.exists() else [])
        return [(it.get("id"), it.get("params")) for it in messages if it["method"] == method]

    def workspace(self, name="workspace"):
        """A copy of the workspace of the tests, and its module."""
        folder = self.folder / name
        shutil.copytree(WORKSPACE, folder)
        return folder, folder / "Hello.Mod"

    def sees_marks(self, path, expected):
        seen = lambda: self.editor.marks(path)
        wait_until(lambda: f"the marks are {seen()}, and not {expected}; said was {self.editor.lines()}",
                   lambda: seen() == expected)

    def sees_state(self, path, expected):
        seen = lambda: self.editor.state(path)
        wait_until(lambda: f"the state is '{seen()}', and not '{expected}'; said was {self.editor.lines()}",
                   lambda: seen() == expected)

    def sees_rows(self, expected):
        """Waits until the list of errors, which was asked for before, has these rows."""
        seen = lambda: self.editor.rows()
        wait_until(lambda: f"the list is {seen()}, and not {expected}", lambda: seen() == expected)

    def hears(self, *parts):
        """Waits for a line to the person that has one of these parts."""
        own = lambda: [line for line in self.editor.lines() if line.startswith("oberon-bsp: ")]
        wait_until(
            lambda: f"{parts} isn't said, but {self.editor.lines()}",
            lambda: any(part in line for line in own() for part in parts),
        )

    def servers(self):
        """The servers that run for the workspaces of this stage."""
        return [pid for pid, words in processes_over(self.folder).items() if b"serve" in words]

    def server(self):
        wait_until("no server runs", lambda: len(self.servers()) == 1)
        return self.servers()[0]

    def has_none_running(self):
        wait_until(lambda: f"still running: {processes_over(self.folder)}", lambda: not self.servers())

    def end(self):
        """Quits the editor, where it was started, and sees that nothing is left running."""
        if self.process:
            self.editor.quit()
            self.has_ended()

    def has_ended(self):
        try:
            self.process.wait(PATIENCE)
        except subprocess.TimeoutExpired:
            raise Missed("the editor doesn't end") from None
        wait_until(lambda: f"left running: {processes_over(self.folder)}", lambda: not processes_over(self.folder))

    def clean_up(self):
        for pid in processes_over(self.folder):
            with contextlib.suppress(ProcessLookupError):
                os.kill(pid, signal.SIGKILL)
        if self.process:
            self.process.kill()
            self.process.wait()
