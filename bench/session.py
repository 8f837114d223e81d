"""A session with the built program over a folder, for what is measured from outside."""
import json
import os
import pathlib
import subprocess
import sys

ROOT = pathlib.Path(__file__).resolve().parent.parent
PROGRAM = str(ROOT / "bin" / "oberon-bsp")
PLACE = "file:///w"
INITIALIZE = {
    "displayName": "bench",
    "version": "1",
    "bspVersion": "2.2.0",
    "rootUri": PLACE,
    "capabilities": {"languageIds": ["oberon"]},
}


def need_program():
    """Ends with a word to the person where the program isn't built, and says where it is unproved, and so slower."""
    if not os.access(PROGRAM, os.X_OK):
        sys.exit("there is no bin/oberon-bsp yet (./build --proved makes it)")
    told = pathlib.Path(f"{PROGRAM}.sum")
    if not told.is_file() or told.read_text().split()[:1] != ["proved"]:
        print("bin/oberon-bsp is UNPROVED: with checks in the place of proofs it takes longer than what ./build --proved makes")


def target(name):
    """The id of a target, as requests have it."""
    return {"uri": f"{PLACE}/?id={name}"}


def frame(message):
    body = json.dumps({"jsonrpc": "2.0", **message}).encode()
    return b"Content-Length: %d\r\n\r\n" % len(body) + body


def read_frame(stream):
    """The content of the next frame, and how many bytes the frame has."""
    length, size = None, 0
    while (line := stream.readline()) not in (b"\r\n", b""):
        size += len(line)
        name, value = line.split(b":", 1)
        if name.lower() == b"content-length":
            length = int(value)
    if length is None:
        sys.exit("the server ended without an answer")
    return json.loads(stream.read(length)), size + 2 + length


class Session:
    """A session over a folder, which counts what is written and published, and the checks that start."""

    def __init__(self, folder):
        self.server = subprocess.Popen(
            [PROGRAM, "serve", str(folder)], stdin=subprocess.PIPE, stdout=subprocess.PIPE
        )
        self.last_id = 0
        self.written = 0
        self.published = 0
        self.checks = 0
        # The first diagnostic that is published, with its document.
        self.first = None

    def send(self, message):
        self.server.stdin.write(frame(message))
        self.server.stdin.flush()

    def notify(self, method):
        self.send({"method": method})

    def ask(self, method, params):
        """The result of a request."""
        self.last_id += 1
        self.send({"id": self.last_id, "method": method, "params": params})
        while True:
            message, size = read_frame(self.server.stdout)
            self.written += size
            if message.get("id") == self.last_id:
                if "error" in message:
                    sys.exit(f"{method} is refused: {message['error']['message']}")
                return message["result"]
            self.keep(message)

    def keep(self, message):
        """Counts what a notification publishes, or the check that it starts."""
        params = message["params"]
        if message["method"] == "build/taskStart" and "message" in params:
            self.checks += 1
        if message["method"] != "build/publishDiagnostics":
            return
        self.published += len(params["diagnostics"])
        if self.first is None and params["diagnostics"]:
            self.first = params["textDocument"]["uri"], params["diagnostics"][0]

    def open(self):
        self.ask("build/initialize", INITIALIZE)
        self.notify("build/initialized")

    def memory(self, what="VmHWM"):
        """The most resident memory until now, in bytes; or as VmRSS that of now."""
        for line in pathlib.Path(f"/proc/{self.server.pid}/status").read_text().splitlines():
            if line.startswith(f"{what}:"):
                return int(line.split()[1]) * 1024
        sys.exit(f"the system doesn't tell {what}")

    def spent(self):
        """The processor seconds until now."""
        # Behind the name, which may have blanks and ends at the last parenthesis, utime and stime are words 12 and 13.
        words = pathlib.Path(f"/proc/{self.server.pid}/stat").read_text().rpartition(")")[2].split()
        return (int(words[11]) + int(words[12])) / os.sysconf("SC_CLK_TCK")

    def leave(self):
        self.ask("build/shutdown", None)
        self.notify("build/exit")
        self.server.stdin.close()
        if self.server.wait() != 0:
            sys.exit(f"the server ended with status {self.server.returncode}")
