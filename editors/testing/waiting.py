"""Waiting for what a person would see."""
import os
import pathlib
import subprocess
import time

ROOT = pathlib.Path(__file__).resolve().parent.parent.parent
EDITORS = ROOT / "editors"

# Seconds after which something is missed; a machine with much to do takes its time.
PATIENCE = int(os.environ.get("EDITORS_PATIENCE", "60"))


class Missed(Exception):
    """Something wasn't seen in time, or isn't as it should be."""


# Seconds after which an editor counts as not started.
START_PATIENCE = 120


def wait_until(what, see, patience=PATIENCE):
    """Waits until `see` gives something true, and returns that."""
    end = time.monotonic() + patience
    while not (seen := see()):
        if time.monotonic() > end:
            raise Missed(what() if callable(what) else what)
        time.sleep(0.05)
    return seen


def environment(home):
    """What an editor runs in, with a home of its own."""
    own = {"HOME": str(home), "XDG_RUNTIME_DIR": str(home), "LC_ALL": "C.UTF-8", "TERM": "xterm-256color"}
    return {**os.environ, **own}


def started(words, home):
    silent = {"stdin": subprocess.DEVNULL, "stdout": subprocess.DEVNULL, "stderr": subprocess.DEVNULL}
    return subprocess.Popen(words, env=environment(home), **silent)
