"""The lists that lead from an opcode to its row, in spv_layout and spv_ops, and from a number of OpenCL.std to its
line, in spv_std_types, and the lengths of the tables, as the rows tell them.

Both crates find the row of an opcode in a list of numbers, `NUMBERS`: of each opcode the number of
its row, from 0, or 255 where there is none. A row is a line of the table in src/rows.rt of
spv_layout and src/table.rt of spv_ops, and begins with its opcodes, which are named as in
spv_module. The rows of the last opcodes, from FAR on, are not in the list of spv_layout, which
looks through these rows, and `NUMBERED` says how many there are before them; in that of spv_ops
they come last, by `PLACES`. A table has parts, each of which is some statics, whose types have its length. The lines of
spv_std_types begin with numbers themselves. A proof says that the lists are right; this is what writes them.
"""

import re
import textwrap

from .common import TESTS, Check, Unusable

CRATES = TESTS.parent / "crates"
OPCODES = CRATES / "spv_module/src/opcode.rt"
LAYOUT = CRATES / "spv_layout/src/rows.rt"
TYPED = CRATES / "spv_ops/src/table.rt"
STD = CRATES / "spv_std_types/src/table.rt"
# The recipe of an opcode, and where the lines that it shows stand.
RECIPE = re.compile(r"(?ms)^## \(a\) A new opcode\n(.*?)^## ")
SHOWN = re.compile(r"(?m)^ {8}(\S.*)$")
COMMANDS = ("cd ", "tests/")
PLACES_OF_LINES = (
    *(OPCODES, LAYOUT, TYPED, CRATES / "spv_ops/src/laws.rt"),
    *(TESTS.parent / "docs/PROFILE.md", TESTS / "opencl.json"),
    *(TESTS / "reading" / name for name in ("opencl.py", "objects.py", "object_conditions.py")),
    TESTS / "checks/typed_opencl.py",
)
NONE = 255
FAR = 4096
# The opcodes that have a place in the list of spv_ops, in order.
PLACES = [*range(404), *range(4450, 4456), 5632, 5633]
WIDTH = 95
REMEDY = "tests/rows-of-opcodes --write makes it anew"
NUMBERED = re.compile(r"(?m)^(const NUMBERED: usize = )\d+;$")
NUMBERS = re.compile(r"(?m)^(pub )?static NUMBERS: \[u8; \d+\] = \[\n(    .*\n)*\];\n")
# The statics of a file, and the constants, whose lengths are how many rows there are in which of its parts.
LENGTHS = {
    LAYOUT: {"TABLE": (0, 1), "ROWS": (0,), "OWN": (0,), "OPENCL_ROWS": (1,)},
    TYPED: {
        **dict.fromkeys(("TABLE", "ENTRIES", "FIRSTS"), (0,)),
        **dict.fromkeys(("FURTHER", "FURTHER_ENTRIES"), (1,)),
        **dict.fromkeys(("OBJECTS", "OBJECT_ENTRIES"), (2,)),
        **{"FURTHER_FROM": (0,), "OBJECTS_FROM": (0, 1)},
    },
}


def text(path):
    """The text of a file."""
    return path.read_text(encoding="utf-8")


def part(path, pattern):
    """The part of a file between two texts."""
    found = re.search(pattern, text(path), re.DOTALL)
    if not found:
        raise Unusable(f"{path} has no {pattern!r}")
    return found[1]


def opcodes():
    """The opcodes by name."""
    return {
        name: int(number)
        for name, number in re.findall(r"pub const (\w+): u16 = (\d+);", text(OPCODES))
    }


PART = re.compile(r"(?s)\$what! \{\n(.*?)\n {8}\}\n")
ROW = re.compile(r"(?m)^ +([A-Z]\w+(?: to \w+)?(?:,\s+\w+(?: to \w+)?)*)(?: by \w+(?: \w+)?)?:(?:\s|$)")
OPCODES_OF = re.compile(r"(\w+)(?: to (\w+))?")
# The numbers of a line of spv_std_types.
STD_LINE = re.compile(r"(?m)^ {12}(\d[\d, to\n]*):(?:\s|$)")


def rows(path):
    """Of each row of a table the first and the last opcode of each group, with its number."""
    known = opcodes()
    parts = PART.findall(text(path))
    if not parts:
        raise Unusable(f"{path} has no table")
    lines = [line for part in parts for line in ROW.findall(part)]
    return [
        (known[first], known[last or first], number)
        for number, line in enumerate(lines)
        for first, last in OPCODES_OF.findall(line)
    ]


def std_lines():
    """The same of the lines of OpenCL.std, by its numbers."""
    heads = [head for part in PART.findall(text(STD)) for head in STD_LINE.findall(part)]
    return [
        (int(first), int(last or first), number)
        for number, head in enumerate(heads)
        for first, last in OPCODES_OF.findall(head)
    ]


def list_of(path, rows):
    """The static with the numbers."""
    of = {}
    for first, last, number in reversed(rows):
        of.update(dict.fromkeys(range(first, last + 1), number))
    near = range(max(opcode for opcode in of if opcode < FAR) + 1)
    numbers = [of.get(opcode, NONE) for opcode in (PLACES if path == TYPED else near)]
    told = textwrap.fill(", ".join(map(str, numbers)) + ",", WIDTH)
    return f"static NUMBERS: [u8; {len(numbers)}] = [\n{textwrap.indent(told, '    ')}\n];\n"


def with_lengths(path, content):
    """A file with the lengths of its tables."""
    counts = [len(ROW.findall(part)) for part in PART.findall(content)]
    for name, parts in LENGTHS[path].items():
        head = re.compile(rf"(?m)^((?:pub )?(?:static {name}: \[\w+; |const {name}: usize = ))\d+")
        count = sum(counts[part] for part in parts)
        content, found = head.subn(lambda was, count=count: f"{was[1]}{count}", content)
        if found != 1:
            raise Unusable(f"{path} has no {name}, or several")
    return content


def numbered(path, rows):
    """A file with the list that its rows tell."""
    now, told = text(path), list_of(path, rows)
    if not NUMBERS.search(now):
        raise Unusable(f"{path} has no NUMBERS")
    return NUMBERS.sub(lambda was: (was[1] or "") + told, now)


def files():
    """The files, with what they must hold."""
    found = {STD: numbered(STD, std_lines())}
    for path in (LAYOUT, TYPED):
        before = sum(last < FAR for _, last, _ in rows(path))
        content = NUMBERED.sub(lambda was, before=before: f"{was[1]}{before};", numbered(path, rows(path)))
        found[path] = with_lengths(path, content)
    return found


def wrong_files(_program, _folder):
    """None if the files hold the lists that the rows say, else which does not."""
    try:
        found = files()
    except KeyError as name:
        return f"  a row has {name}, which is no opcode"
    for path, content in found.items():
        if text(path) != content:
            return f"  NUMBERS, or the lengths, of {path.relative_to(CRATES)} are not what the rows tell; {REMEDY}"
    return None


def wrong_recipe(_program, _folder):
    """None if the tree has the lines that CONTRIBUTING.md shows of an opcode, else which it has not."""
    places = [text(path) for path in PLACES_OF_LINES]
    lines = SHOWN.findall(part(TESTS.parent / "CONTRIBUTING.md", RECIPE.pattern))
    found = [line for line in lines if not line.startswith(COMMANDS)]
    absent = [line for line in found if not any(line in place for place in places)]
    if len(found) < 8:
        return f"  CONTRIBUTING.md shows {len(found)} lines"
    return "\n".join(f"  no file has: {line}" for line in absent) or None


def checks():
    """The check of both files, and that of the recipe which changes them."""
    return [
        Check("opcodes: the numbers of their rows", frozenset(), wrong_files),
        Check("opcodes: the lines of the recipe", frozenset(), wrong_recipe),
    ]
