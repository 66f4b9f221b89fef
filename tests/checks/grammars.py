"""Hostile grammar files: as many elements, as long names and as deep a tree as files may have.

Each is read in time near to linear in its size: a run that takes over a minute fails, and with a
time that grows with the square of the size each would take far longer.
"""

import json

from .common import TESTS, Answer, Check, difference, run

KERNEL = TESTS / "modules/smallest-kernel.spv"
PREFIX = "a" * 1_000
DEEPEST = 127

IDS = [{"kind": "IdResult", "category": "Id"}, {"kind": "IdRef", "category": "Id"}]
UNKNOWN_OPCODE = Answer(b"fault I3 inst 0 word 5\n", b"", 1)


def refused(code):
    """The answer to a grammar file that breaks this code."""
    return Answer(b"", f"error {code}\n".encode(), 2)


def grammar(instructions=(), kinds=()):
    """The text of a grammar file."""
    return json.dumps({"instructions": list(instructions), "operand_kinds": list(kinds)})


def enumerants(count):
    """One kind with very many enumerants, each with capabilities and a parameter."""
    elements = [
        {
            "enumerant": f"E{number}",
            "value": number,
            "capabilities": [f"E{number * 7 % count}", "E0"],
            "parameters": [{"kind": "IdRef"}],
        }
        for number in range(count)
    ]
    return grammar(kinds=[*IDS, {"kind": "E", "category": "ValueEnum", "enumerants": elements}])


def entries(count, opcode):
    """Very many instructions; `opcode` gives the opcode of each."""
    operands = [{"kind": "IdResult"}, {"kind": "IdRef", "quantifier": "*"}]
    return grammar(
        ({"opname": f"Op{at}", "opcode": opcode(at), "operands": operands} for at in range(count)),
        IDS,
    )


def long_names(count):
    """Kinds and instructions whose names have a long beginning in common."""
    return grammar(
        ({"opname": f"{PREFIX}{at}", "opcode": 1_000 + at} for at in range(count)),
        [*IDS, *({"kind": f"{PREFIX}{at}", "category": "Id"} for at in range(count))],
    )


def composites(count):
    """Very many composite kinds, each of two kinds that stand last in the file."""
    last = [{"kind": f"Last{at}", "category": "Literal"} for at in range(count)]
    first = [
        {"kind": f"C{at}", "category": "Composite", "bases": [f"Last{at}", f"Last{count - 1}"]}
        for at in range(count)
    ]
    return grammar(kinds=first + last)


def operands(count):
    """An instruction with very many operands, of which the result comes twice."""
    pattern = [{"kind": "IdResult"}, *([{"kind": "IdRef"}] * count), {"kind": "IdResult"}]
    return grammar([{"opname": "OpLong", "opcode": 1, "operands": pattern}], IDS)


def nested(levels, times=1):
    """A tree of so many levels, the object of the file among them, in a key that is not looked at."""
    array = "[" * (levels - 2) + "]" * (levels - 2)
    return f'{{"instructions": [], "operand_kinds": [], "copyright": [{", ".join([array] * times)}]}}'


def under(text, wanted):
    """The check of the smallest kernel under the grammar file that `text` makes."""

    def check(program, folder):
        path = folder / "grammar.json"
        path.write_text(text(), encoding="utf-8")
        return difference(wanted, run(program, ["check", "--grammar", path, KERNEL], folder))

    return check


def checks():
    """All of these. Each needs the first path alone."""
    found = [
        ("enumerants", lambda: enumerants(100_000), UNKNOWN_OPCODE),
        ("entries", lambda: entries(60_000, lambda at: 1_000 + at), UNKNOWN_OPCODE),
        ("entries-of-one-opcode", lambda: entries(60_000, lambda at: 1_000), UNKNOWN_OPCODE),
        ("long-names", lambda: long_names(10_000), UNKNOWN_OPCODE),
        ("composites", lambda: composites(50_000), UNKNOWN_OPCODE),
        ("operands", lambda: operands(200_000), refused("J6")),
        ("nested", lambda: nested(DEEPEST), UNKNOWN_OPCODE),
        ("nested-often", lambda: nested(DEEPEST, 4_000), UNKNOWN_OPCODE),
        ("nested-too-deep", lambda: nested(DEEPEST + 1), refused("J1")),
    ]
    layers = frozenset({"first path"})
    return [Check(f"grammar: {name}", layers, under(text, wanted)) for name, text, wanted in found]
