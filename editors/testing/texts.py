"""How a module's text is indented, and in which colours it is shown."""
from .common import expect
from .waiting import ROOT, Missed

PROCEDURE = """
PROCEDURE P{0};
VAR a: INTEGER;
BEGIN
a := {0};
IF a > 3 THEN
DEC(a)
END
END P{0};
"""

COLOURED = """MODULE Hello;
IMPORT Out;
CONST text = "(* VAR";
(* outer (* inner *) BEGIN *)
PROCEDURE Add(a: INTEGER);
END Add;
END Hello.
"""


def indented_by_structure(stage):
    """a module whose lines all begin at the front is indented by its structure"""
    editor = stage.start()
    for module in sorted((ROOT / "examples" / "workspace").glob("*/*.Mod")):
        text = module.read_text()
        copy = stage.folder / module.name
        copy.write_text("".join(line.lstrip(" ") for line in text.splitlines(keepends=True)))
        editor.open(copy)
        expect(editor.indented(copy), text, module.name)


def indented_behind_change(stage):
    """lines behind one that was changed are indented by what it is now"""
    editor = stage.start()
    module = stage.folder / "Hello.Mod"
    module.write_text("MODULE Hello;\nBEGIN\nx := 1;\ny := 2\nEND Hello.\n")
    editor.open(module)
    expect(editor.indented(module), "MODULE Hello;\nBEGIN\n  x := 1;\n  y := 2\nEND Hello.\n", "indented")
    editor.replace(module, "x := 1;", "REPEAT x := 1;")
    expect(editor.indented(module), "MODULE Hello;\nBEGIN\n  REPEAT x := 1;\n    y := 2\n  END Hello.\n", "indented again")


def indented_in_one_walk(stage):
    """four times as many lines are indented in less than eight times the time"""
    editor = stage.start()
    seconds = []
    for count in 100, 400:
        module = stage.folder / f"Long{count}.Mod"
        module.write_text("MODULE Long;\n" + "".join(map(PROCEDURE.format, range(count))) + "END Long.\n")
        seconds.append(editor.seconds_to_indent(module))
    if seconds[1] > 8 * seconds[0]:
        raise Missed(f"the seconds are {seconds}")


def coloured(stage):
    """words, types, comments that nest, and strings are shown as what they are"""
    editor = stage.start()
    module = stage.folder / "Hello.Mod"
    module.write_text(COLOURED)
    editor.open(module)
    wanted = {
        "MODULE": "keyword", "IMPORT": "keyword", '"(* VAR': "string", "VAR": "string", "inner": "comment",
        "BEGIN": "comment", "PROCEDURE": "keyword", "INTEGER": "type", "END": "keyword", "Hello": "", "Out": "",
    }
    expect({text: editor.colour(module, text) for text in wanted}, wanted, "what the words are shown as")


TESTS = (indented_by_structure, indented_behind_change, indented_in_one_walk, coloured)
