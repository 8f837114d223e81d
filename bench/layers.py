"""Makes programs to be measured, each in Oberon-07 and of the same shape in C.

A program is modules in layers. Each module imports four of the layer below and has 20 procedures of 20 statements,
which call procedures of this module and of those that it imports, use their constants and variables, and change records
of their types. The record that a module exports is plain in every other layer; in those between it extends that of an
imported module and has fields of another's. So no type is written out over more than two layers, and no header in C
includes one that includes others. A module in C is a header and a text.
"""
import random
from string import Template

EACH_LAYER = 8
PROCEDURES = 20

# The modules of the layer below that are imported: those so many places further on.
STEPS = (0, 1, 2, 4)

# The procedures are by turns of these kinds: proper ones, functions with an INTEGER and functions with a BOOLEAN.
PROPER, NUMBER, TRUTH = range(3)

HEADINGS = (
    (
        "PROCEDURE Update$number*(VAR it: Item; VAR other: $partner_item; n: INTEGER);",
        "void ${module}_Update$number(struct ${module}_Item *it, struct ${partner}_Item *other, int n)",
    ),
    (
        "PROCEDURE Count$number*(VAR it: Item; n: INTEGER): INTEGER;",
        "int ${module}_Count$number(struct ${module}_Item *it, int n)",
    ),
    (
        "PROCEDURE Matches$number*(VAR text: ARRAY OF CHAR; n: INTEGER): BOOLEAN;",
        "_Bool ${module}_Matches$number(char text[], int length, int n)",
    ),
)

RESULTS = (
    ("", ""),
    ("\n  RETURN k + n", "\n  return k + n;"),
    ("\n  RETURN found & (k > n)", "\n  return found && k > n;"),
)

# The first three statements of each procedure.
START = (
    """
  k := (n + $one) MOD Size;
  found := $place > k * $two;
  $place := $place + Step * k
""",
    """
  k = (n + $one) % ${module}_Size;
  found = $place_c > k * $two;
  $place_c = $place_c + Step * k;
""",
)

# The 17 behind them, in any order.
BLOCKS = (
    (
        """
  FOR i := 0 TO Size - 1 DO
    IF table[i].used & (table[i].item.key = k + $limit) THEN
      found := TRUE;
      INC(table[i].item.count, $one)
    ELSIF table[i].weight > $place THEN
      table[i].weight := $place DIV $two + i
    END
  END
""",
        """
  for (i = 0; i <= ${module}_Size - 1; i++) {
    if (table[i].used && table[i].item.${kept}key == k + $limit_c) {
      found = 1;
      table[i].item.${kept}count += $one;
    } else if (table[i].weight > $place_c) {
      table[i].weight = $place_c / $two + i;
    }
  }
""",
    ),
    (
        """
  WHILE (k > 0) & ~found DO
    k := k DIV 2;
    IF ODD(k + $one) OR ($total < n) THEN
      INCL(marks, k MOD 32)
    ELSE
      found := $bit IN marks
    END
  END
""",
        """
  while (k > 0 && !found) {
    k = k / 2;
    if ((k + $one) % 2 != 0 || $total_c < n) {
      marks |= 1u << k % 32;
    } else {
      found = marks >> $bit & 1;
    }
  }
""",
    ),
    (
        """
  CASE k MOD 8 OF
    0, 1: $text[k MOD $length] := "$letter"
  | 2 .. 5: total := total + $one
  | 6, 7: table[k].item := a
  END
""",
        """
  switch (k % 8) {
    case 0: case 1: $text[k % $length_c] = '$letter'; break;
    case 2: case 3: case 4: case 5: ${module}_total = ${module}_total + $one; break;
    case 6: case 7: table[k].item = a; break;
  }
""",
    ),
    (
        """
  IF $asked THEN
    Update$updated(own, $updated_with, k)
  END
""",
        """
  if ($asked_c) {
    ${module}_Update$updated(&own, &$updated_with, k);
  }
""",
    ),
    ("  $place := $place + $called", "  $place_c = $place_c + $called_c;"),
)

OBERON = """MODULE $module;
(* Keeps items in a table, and counts what became of them. *)

${imports}CONST
  Size* = $size;
  Limit* = $bound;
  Step = $step;

TYPE
  Item* = RECORD$item END;
  Slot = RECORD item: $kept_item; used: BOOLEAN; weight: INTEGER END;

VAR
  total*: INTEGER;
  own: Item;
$variables
  table: ARRAY Size OF Slot;
  marks: SET;
  line: ARRAY 64 OF CHAR;

$procedures
BEGIN
  total := 0;
  own.key := Limit;
  marks := {}
END $module.
"""

HEADER = """#ifndef ${module}_H
#define ${module}_H
$includes
enum { ${module}_Size = $size, ${module}_Limit = $bound };

struct ${module}_Item {$item };

extern int ${module}_total;

$prototypes
void ${module}_start(void);

#endif
"""

TEXT = """/* Keeps items in a table, and counts what became of them. */

$includes
enum { Step = $step };

struct Slot { struct ${kept_module}_Item item; _Bool used; int weight; };

int ${module}_total;
static struct ${module}_Item own;
$variables
static struct Slot table[${module}_Size];
static unsigned marks;
static char line[64];

$procedures
void ${module}_start(void)
{
  ${module}_total = 0;
  own.${own}key = ${module}_Limit;
  marks = 0;
}
"""


def filled(pair, words):
    """A text in Oberon-07 and in C, with the words in it."""
    return tuple(Template(text.strip("\n")).substitute(words) for text in pair)


class Module:
    """A module, by its name and the modules that it imports. Where it extends, its record stands on imported ones."""

    def __init__(self, name, imports=(), extends=False, procedures=PROCEDURES):
        self.name = name
        self.imports = imports
        self.extends = extends
        self.procedures = procedures
        self.pick = random.Random(name)
        # The variables of the records of other modules, each with its module; without imports, of this one's.
        self.holders = list(zip("abcd", imports or [self]))

    def seen(self, module, name):
        """What the module calls a name of another one, or of itself."""
        return name if module is self else f"{module.name}.{name}"

    def path(self):
        """What stands in C before a field that the record has from its base."""
        return "base." if self.extends else ""

    def partner(self, number):
        """The variable and the module of what a proper procedure takes beside the module's own record."""
        return self.holders[number // 3 % len(self.holders)]

    def one_of(self, module, kind, before):
        """The number of a procedure of a module, in this one of those before a number; None where there is none."""
        numbers = range(kind, before if module is self else module.procedures, 3)
        return self.pick.choice(numbers) if numbers else None

    def place(self, number):
        """A variable that the procedure may change, in Oberon-07 and in C."""
        _, partner = self.partner(number)
        total = ("total", f"{self.name}_total")
        mine = ("own.count", f"own.{self.path()}count")
        given = ("it.key", f"it->{self.path()}key")
        other = ("other.count", f"other->{partner.path()}count")
        return self.pick.choice([(total, given, other), (total, given), (total, mine)][number % 3])

    def called(self, number):
        """A call of a function with an INTEGER."""
        held, module = self.pick.choice(self.holders)
        other = self.one_of(module, NUMBER, number)
        if other is None:
            return "Size", f"{self.name}_Size"
        argument, argument_c = held, held
        if self.extends and module is self.imports[0]:
            argument, argument_c = "own", "own.base"
        more = self.pick.randrange(1000)
        return (
            f"{self.seen(module, f'Count{other}')}({argument}, k + {more})",
            f"{module.name}_Count{other}(&{argument_c}, k + {more})",
        )

    def asked(self, number):
        """A call of a function with a BOOLEAN."""
        _, module = self.pick.choice(self.holders)
        other = self.one_of(module, TRUTH, number)
        if other is None:
            return "found", "found"
        more = self.pick.randrange(1000)
        return (
            f"{self.seen(module, f'Matches{other}')}(line, k + {more})",
            f"{module.name}_Matches{other}(line, 64, k + {more})",
        )

    def words(self, number):
        """What stands in the texts of a procedure."""
        _, partner = self.partner(number)
        _, looked_at = self.pick.choice(self.holders)
        updated = self.one_of(self, PROPER, number + 1)
        takes_text = number % 3 == TRUTH
        words = {
            "module": self.name,
            "number": number,
            "partner": partner.name,
            "partner_item": self.seen(partner, "Item"),
            "kept": self.holders[0][1].path(),
            "limit": self.seen(looked_at, "Limit"),
            "limit_c": f"{looked_at.name}_Limit",
            "total": self.seen(looked_at, "total"),
            "total_c": f"{looked_at.name}_total",
            "updated": updated,
            "updated_with": self.partner(updated)[0],
            "text": "text" if takes_text else "line",
            "length": "LEN(text)" if takes_text else "64",
            "length_c": "length" if takes_text else "64",
            "one": self.pick.randrange(1, 1000),
            "two": self.pick.randrange(2, 1000),
            "bit": self.pick.randrange(32),
            "letter": self.pick.choice("abcdefghijklmnopqrstuvwxyz"),
        }
        for name, both in (("place", self.place), ("called", self.called), ("asked", self.asked)):
            words[name], words[f"{name}_c"] = both(number)
        return words

    def procedure(self, number):
        """A procedure in both languages, and its heading in C."""
        kind = number % 3
        words = self.words(number)
        heading, heading_c = filled(HEADINGS[kind], words)
        statements = [filled(START, words)]
        for block in self.pick.sample(BLOCKS, len(BLOCKS)):
            statements.append(filled(block, self.words(number)))
        name = heading.removeprefix("PROCEDURE ").split("*")[0]
        body = ";\n".join(oberon for oberon, _ in statements)
        body_c = "\n".join(c for _, c in statements)
        result, result_c = RESULTS[kind]
        return (
            f"{heading}\n  VAR i, k: INTEGER; found: BOOLEAN;\nBEGIN\n{body}{result}\nEND {name};\n",
            f"{heading_c}\n{{\n  int i, k;\n  _Bool found;\n{body_c}{result_c}\n}}\n",
            f"{heading_c};",
        )

    def record(self):
        """The fields of the module's record, in both languages."""
        if not self.extends:
            return " key*, count*: INTEGER; name*: ARRAY 16 OF CHAR", " int key, count; char name[16];"
        base, field = self.imports[0].name, self.imports[1].name
        return (
            f" ({base}.Item) left*, right*: {field}.Item; depth*: INTEGER",
            f" struct {base}_Item base; struct {field}_Item left, right; int depth;",
        )

    def declared(self):
        """What stands in the texts of the module before its procedures, in both languages."""
        imports = [it.name for it in self.imports]
        item, item_c = self.record()
        known = self.imports[:2] if self.extends else ()
        kept = self.holders[0][1]
        both = {"module": self.name, "size": self.pick.randrange(16, 64), "bound": self.pick.randrange(100, 1000)}
        oberon = {
            **both,
            "imports": f"IMPORT {', '.join(imports)};\n\n" if imports else "",
            "step": " + ".join(f"{it}.Limit" for it in imports) or "4 * Limit",
            "item": item,
            "kept_item": self.seen(kept, "Item"),
            "variables": "\n".join(f"  {held}: {self.seen(it, 'Item')};" for held, it in self.holders),
        }
        header = {
            **both,
            "item": item_c,
            "includes": "\n".join(
                [f'#include "{it.name}.h"' for it in known] + [f"struct {it}_Item;" for it in imports]
            ),
        }
        text = {
            **both,
            "step": " + ".join(f"{it}_Limit" for it in imports) or f"4 * {self.name}_Limit",
            "includes": "\n".join(f'#include "{it}.h"' for it in [self.name, *imports]),
            "kept_module": kept.name,
            "own": self.path(),
            "variables": "\n".join(f"static struct {it.name}_Item {held};" for held, it in self.holders),
        }
        return oberon, header, text

    def texts(self):
        """The module in Oberon-07, and its header and its text in C."""
        oberon, header, text = self.declared()
        procedures = [self.procedure(number) for number in range(self.procedures)]
        oberon["procedures"] = "\n".join(it for it, _, _ in procedures)
        text["procedures"] = "\n".join(it for _, it, _ in procedures)
        header["prototypes"] = "\n".join(it for _, _, it in procedures)
        return tuple(Template(it).substitute(words) for it, words in ((OBERON, oberon), (HEADER, header), (TEXT, text)))


def program(layers):
    """The modules of a program, as a list for each layer."""
    made = []
    for layer in range(layers):
        below = made[-1] if made else []
        made.append([
            Module(
                f"M{layer}x{number}",
                [below[(number + step) % EACH_LAYER] for step in STEPS] if below else (),
                layer % 2 == 1,
            )
            for number in range(EACH_LAYER)
        ])
    return made


def largest(limit):
    """A module without imports that has as many procedures as a text of at most so many bytes can have."""
    low, high = 1, limit
    while high - low > 1:
        middle = (low + high) // 2
        fits = len(Module("Large", procedures=middle).texts()[0]) <= limit
        low, high = (middle, high) if fits else (low, middle)
    return Module("Large", procedures=low)
