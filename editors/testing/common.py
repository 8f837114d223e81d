"""What tests of both editors share: a fault behind a character outside the basic plane, and the stand-in's error."""
from .waiting import Missed

# A character outside the basic plane, which is two UTF-16 units.
WIDE = "\N{MATHEMATICAL DOUBLE-STRUCK CAPITAL A}"

GREETING = 'Out.String("Hello, world");'
WIDE_FAULT = [[f'  Out.String("{WIDE}") ', "$", "bad character"]]
STAND_IN_MARK = [["", "MODULE", "an error of the stand-in"]]


def expect(given, wanted, what):
    """Misses what isn't as it is wanted."""
    if given != wanted:
        raise Missed(f"{what}: {given}, and not {wanted}")


def spoil(editor, module):
    """Types and saves a fault behind a character of two UTF-16 units."""
    editor.replace(module, GREETING, f'Out.String("{WIDE}") $;')
    editor.save(module)


def error_shown_on(stage):
    """Sees that the editor still serves another workspace."""
    _, module = stage.workspace("another")
    stage.editor.open(module)
    spoil(stage.editor, module)
    stage.sees_marks(module, WIDE_FAULT)


def works_on(stage, module):
    """Sees that the session still goes on with the stand-in."""
    stage.editor.replace(module, "BEGIN", "BEGIN ")
    stage.editor.save(module)
    stage.sees_marks(module, STAND_IN_MARK)
