"""Talks to a build server as an editor does, and prints the exchange for a person to read. The workspace is
a copy of examples/workspace, in which modules are broken and mended. Then builds are cancelled, and it is told of each
document whether it keeps what was shown of it or has what is new; a list that is neither ends the exchange. At the end the
workspace file gets a module and a target more, and loses them again, and is read anew each time.

usage: exchange.py [--messages] PROGRAM

Each message is a line, and each diagnostic stands below the message that publishes it, as compilers show it. Of the
tasks of a build there is a line for each check that starts, and one for what is found in a target. With --messages each
message is shown whole, as JSON.
"""
import json
import pathlib
import re
import shutil
import subprocess
import sys
import tempfile
import unicodedata
import urllib.parse

WORKSPACE = pathlib.Path(__file__).resolve().parent / "workspace"

# How modules are broken: the module, what is told of it, and what stands in it in whose place. Each is mended before
# the next one is broken.
FAULTS = (
    ("shapes/Canvas.Mod", "Canvas.Mod assigns a number to a CHAR", "dots[y, x] := Blank", "dots[y, x] := 32"),
    ("shapes/Shapes.Mod", "Shapes.Mod calls the radius of a circle its size", "radius", "size"),
)

# What is broken, and mended, while compiles are cancelled: two modules, neither of which imports the other.
CANCELLED = (
    ("shapes/Canvas.Mod", "dots[y, x] := Blank", "dots[y, x] := 32"),
    ("tests/PointsTest.Mod", "p.y = -3", "p.z = -3"),
)

# What is added to the workspace file: a module of a target that is there, and a target with a module of its own. Each has a
# fault, as something new may have.
ADDED_TO = "shapes"
ADDED_MODULE = ("shapes/Squares.Mod", "MODULE Squares;\n\nCONST\n  Corners* = 4;\n\nEND Square.\n")
ADDED_TARGET = {"name": "garden", "kind": "library", "modules": ["garden/Trees.Mod"], "dependencies": ["shapes"]}
TREES = "MODULE Trees;\n\nIMPORT Points;\n\nVAR\n  top: Points.Point;\n\nBEGIN\n  top.z := 1\nEND Trees.\n"

SEVERITIES = {1: "error", 2: "warning", 3: "note", 4: "hint"}
STATUSES = {1: "ok", 2: "error", 3: "cancelled"}
CHANGES = {1: "created", 2: "changed", 3: "deleted"}


def frame(message):
    body = json.dumps(message).encode()
    return b"Content-Length: %d\r\n\r\n" % len(body) + body


def next_message(stream):
    """The next message of a stream of frames, or None at its end."""
    length = None
    while (line := stream.readline()) not in (b"\r\n", b""):
        name, value = line.split(b":", 1)
        if name.lower() == b"content-length":
            length = int(value)
    return None if length is None else json.loads(stream.read(length))


# ---- diagnostics


def lines_of(text):
    """The lines of a text, as the protocol counts them."""
    return re.split("\r\n|\r|\n", text)


def index_of(line, character):
    """The index in a line of a character of the protocol, which counts UTF-16 units."""
    units = 0
    for index, char in enumerate(line):
        if units >= character:
            return index
        units += 2 if char > "\uffff" else 1
    return len(line)


def blank_for(char):
    """What takes as much room on a line as the character does."""
    if char == "\t":
        return "\t"
    if unicodedata.category(char) in ("Mn", "Me", "Cf"):
        return ""
    return "  " if unicodedata.east_asian_width(char) in ("W", "F") else " "


def printable(line):
    """A line without characters that would act on a terminal."""
    return "".join(c if c == "\t" or unicodedata.category(c) != "Cc" else "\N{REPLACEMENT CHARACTER}" for c in line)


def shown(diagnostic, path, text):
    """The lines in which compilers show a diagnostic of a text: where it is and what it says, the line of the text, and
    a mark under the range, or under its part in that line."""
    start, end = diagnostic["range"]["start"], diagnostic["range"]["end"]
    lines = lines_of(text)
    line = lines[start["line"]] if start["line"] < len(lines) else ""
    begin = index_of(line, start["character"])
    behind = index_of(line, end["character"]) if end["line"] == start["line"] else len(line)
    kind = SEVERITIES[diagnostic.get("severity", 1)]
    margin = "".join(map(blank_for, line[:begin]))
    width = len("".join(map(blank_for, line[begin:behind])))
    yield f"{path}:{start['line'] + 1}:{begin + 1}: {kind}: {diagnostic['message']}"
    yield f"    {printable(line)}"
    yield f"    {margin}^{'~' * (width - 1)}"


# ---- the exchange


def short_of(value, root):
    """What an answer tells, in few words. Documents are told by their paths."""
    if "code" in value:
        return f"{value['code']} {value['message']}"
    if "statusCode" in value:
        return STATUSES[value["statusCode"]]
    if "items" in value:
        documents = [source["uri"] for item in value["items"] for source in item["sources"]]
        return ", ".join(document.removeprefix(root) for document in documents)
    if "targets" in value:
        return ", ".join(target["displayName"] for target in value["targets"])
    return " ".join(str(value[name]) for name in ("displayName", "version") if name in value)


def counted(number, word):
    return f"{number} {word}" if number == 1 else f"{number} {word}s"


def name_in(target):
    """The name of a target, as its id has it."""
    return urllib.parse.parse_qs(urllib.parse.urlsplit(target["uri"]).query)["id"][0]


def followed(method, params, root):
    """What a person follows of a task: which document is checked, or what is found in a target. Else nothing."""
    if method == "build/taskStart" and "message" in params:
        return f"checking {params['message'].removeprefix(root)}"
    if params.get("dataKind") != "compile-report":
        return None
    report = params["data"]
    found = f"{counted(report['errors'], 'error')}, {counted(report['warnings'], 'warning')}"
    if report.get("noOp"):
        found = "up to date" if found == "0 errors, 0 warnings" else f"up to date, {found}"
    return f"{name_in(report['target'])}: {found}"


class Client:
    def __init__(self, program, folder, is_whole):
        self.server = subprocess.Popen(
            [program, "serve", str(folder)], stdin=subprocess.PIPE, stdout=subprocess.PIPE
        )
        self.folder = folder
        self.is_whole = is_whole
        self.last_id = 0
        self.targets = []
        # What is shown of each document in a target, by the paths of the documents and the ids of the targets.
        self.table = {}

    def show(self, who, what, value, lines=()):
        """Prints a message, and what it says: its value as JSON, or else these lines."""
        print(f"{who:>6}  {what}")
        if self.is_whole:
            lines = json.dumps(value, indent=2).splitlines() if value is not None else []
        for line in lines:
            print("        " + line)
        if self.is_whole or lines:
            print()

    def send(self, *messages):
        """Sends messages in one piece."""
        self.server.stdin.write(b"".join(map(frame, messages)))
        self.server.stdin.flush()

    def asked(self, method, params):
        """A request, which is printed."""
        self.last_id += 1
        message = {"jsonrpc": "2.0", "id": self.last_id, "method": method}
        if params is not None:
            message["params"] = params
        self.show("client", f"request {self.last_id}: {method}", params)
        return message

    def told(self, method, params=None):
        """A notification, which is printed."""
        self.show("client", f"notification: {method}", params)
        message = {"jsonrpc": "2.0", "method": method}
        return message if params is None else {**message, "params": params}

    def request(self, method, params=None):
        self.send(self.asked(method, params))
        return self.answer()

    def request_and_cancel(self, method, params):
        """Asks for something, and cancels it before it is answered."""
        request = self.asked(method, params)
        self.send(request, self.told("$/cancelRequest", {"id": self.last_id}))
        return self.answer()

    def answer(self):
        """The answer to the request that was sent last. What is told before it is printed."""
        while (answer := next_message(self.server.stdout)) is not None:
            if answer.get("id") == self.last_id and "method" not in answer:
                self.show_answer(answer)
                return answer
            self.show_told(answer)
        sys.exit("the server ended without an answer")

    def show_answer(self, answer):
        kind = "error" if "error" in answer else "result"
        value = answer[kind]
        if value is None:
            short = "null"
        else:
            short = "" if self.is_whole else short_of(value, self.folder.as_uri() + "/")
        self.show("server", f"{kind} of request {self.last_id}" + (f": {short}" if short else ""), value)

    def show_told(self, message):
        """Prints what the server tells by itself."""
        method, params = message.get("method", "response"), message.get("params")
        if method == "build/publishDiagnostics":
            self.keep(params)
        if self.is_whole or not method.startswith("build/task"):
            self.show("server", method, params, self.lines_of(message))
        elif line := followed(method, params, self.folder.as_uri() + "/"):
            self.show("server", line, params)

    def keep(self, params):
        """Keeps what a publication shows: all of a document in a target, or more of it."""
        place = self.path_of(params), params["buildTarget"]["uri"]
        before = [] if params["reset"] else self.table[place]
        self.table[place] = before + params["diagnostics"]

    def path_of(self, params):
        """The path of the document that a publication is about."""
        file = pathlib.Path(urllib.parse.unquote(urllib.parse.urlsplit(params["textDocument"]["uri"]).path))
        return file.relative_to(self.folder)

    def lines_of(self, message):
        """What a publication says, or which targets changed."""
        params = message.get("params")
        if message.get("method") == "buildTarget/didChange":
            return [f"{CHANGES[change['kind']]} {name_in(change['target'])}" for change in params["changes"]]
        if message.get("method") != "build/publishDiagnostics":
            return []
        path = self.path_of(params)
        file = self.folder / path
        text = file.read_bytes().decode(errors="replace") if file.is_file() else ""
        lines = [line for diagnostic in params["diagnostics"] for line in shown(diagnostic, path, text)]
        return lines or [f"{path} has no errors any more"]

    def look_up_targets(self):
        """Asks for all targets, which compiles are of from then on."""
        told = self.request("workspace/buildTargets")
        self.targets = [target["id"] for target in told["result"]["targets"]]

    def notify(self, method):
        self.send(self.told(method))

    def status(self):
        self.server.stdin.close()
        return self.server.wait()


def head(client, note):
    print(f"-- {note}\n" if client.is_whole else f"\n-- {note}")


def compile_all(client, note):
    """Compiles every target of the workspace that the client opened."""
    head(client, note)
    client.request("buildTarget/compile", {"targets": client.targets})


def compile_none(client, note):
    """Compiles every target too, but cancels that. Returns what was shown before, and what is shown then."""
    head(client, note)
    before = dict(client.table)
    answer = client.request_and_cancel("buildTarget/compile", {"targets": client.targets})
    if answer.get("result", {}).get("statusCode") != 3:
        sys.exit("the compile isn't answered as cancelled")
    return before, dict(client.table)


def show_kept(client, before, between):
    """Tells what a cancelled build left of each document's list, now that a whole build tells which one is new."""
    head(client, "what the cancelled build left of each document's list:")
    for place in sorted({*before, *between, *client.table}):
        old, left, new = (table.get(place, []) for table in (before, between, client.table))
        if left == old:
            what = "kept its old list" if old != new else "kept its list, which is the new one too"
        elif left == new:
            what = "had its new list"
        else:
            sys.exit(f"{place[0]} had neither its old list nor its new one")
        print(f"        {place[0]} {what}")
    if client.is_whole:
        print()


def broken(client, path, right, wrong):
    """Breaks a module, and returns its file and the text that it had."""
    module = client.folder / path
    text = module.read_text()
    if right not in text:
        sys.exit(f"{path} has no {right}")
    module.write_text(text.replace(right, wrong))
    return module, text


def show_cancel(client, note):
    """Shows what a cancelled compile and a whole one behind it publish of the modules as they are."""
    before, between = compile_none(client, f"{note}, and the compile is cancelled:")
    compile_all(client, "the same, and the compile goes through:")
    show_kept(client, before, between)


def show_cancels(client):
    """Shows a cancel where nothing is known of what changed, and one where that is known of one of two modules."""
    first, second = CANCELLED
    module, text = broken(client, *first)
    show_cancel(client, f"{module.name} is broken")
    module.write_text(text)
    other, other_text = broken(client, *second)
    show_cancel(client, f"{module.name} is mended and {other.name} is broken")
    other.write_text(other_text)
    compile_all(client, f"{other.name} is mended:")


def show_fault(client, path, note, right, wrong):
    """Shows what it does to the workspace that a module has something wrong, and that it is mended."""
    module, text = broken(client, path, right, wrong)
    compile_all(client, f"{note}:")
    module.write_text(text)
    compile_all(client, f"{module.name} is mended:")


def reread(client, file, text, note):
    """Writes the workspace file, has it read again, and compiles what it describes."""
    file.write_text(text)
    head(client, note)
    if "error" in client.request("workspace/reload"):
        sys.exit("the reload is refused")
    client.look_up_targets()
    compile_all(client, "all targets that there are now:")


def show_reloads(client):
    """Shows what becomes of a workspace whose file gets a module and a target more, and loses them again."""
    file = client.folder / "oberon-build.json"
    text = file.read_text()
    workspace = json.loads(text)
    path, module = ADDED_MODULE
    [target] = [target for target in workspace["targets"] if target["name"] == ADDED_TO]
    target["modules"].append(path)
    workspace["targets"].append(ADDED_TARGET)
    (client.folder / path).write_text(module)
    (client.folder / "garden").mkdir()
    (client.folder / "garden/Trees.Mod").write_text(TREES)
    reread(client, file, json.dumps(workspace), f"{ADDED_TO} gets a module more, and there is a target more:")
    reread(client, file, text, "the workspace file is as it was:")


def show_session(client):
    client.request(
        "build/initialize",
        {
            "displayName": "demo",
            "version": "1",
            "bspVersion": "2.2.0",
            "rootUri": client.folder.as_uri(),
            "capabilities": {"languageIds": ["oberon"]},
        },
    )
    client.look_up_targets()
    client.request("buildTarget/sources", {"targets": client.targets})
    compile_all(client, "the workspace as it is:")
    compile_all(client, "nothing changed:")
    for fault in FAULTS:
        show_fault(client, *fault)
    show_cancels(client)
    show_reloads(client)
    client.request("build/shutdown")
    client.notify("build/exit")


def main():
    words = sys.argv[1:]
    is_whole = words[:1] == ["--messages"]
    if is_whole:
        words = words[1:]
    if len(words) != 1:
        sys.exit(__doc__)
    with tempfile.TemporaryDirectory() as place:
        folder = pathlib.Path(place).resolve() / "workspace"
        shutil.copytree(WORKSPACE, folder)
        client = Client(words[0], folder, is_whole)
        show_session(client)
        status = client.status()
    print(f"The server ended with status {status}.")
    sys.exit(status)


if __name__ == "__main__":
    main()
