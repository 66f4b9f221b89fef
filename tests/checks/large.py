"""Modules near the greatest size, one of each shape that tests/generate makes.

They show that hostile sizes are read in reasonable time and memory: a run that takes over a minute fails, and one that
takes over 14 times the module.
"""

import subprocess
import sys

from .common import SECONDS, TESTS, Check, measured

VALID = b"valid\n"
OUTSIDE = b"fault P1 inst 0 word 5\n"
# How many times the module a run may take of memory.
TIMES, KIB = 14, 1 << 10
SHAPES = {
    **dict.fromkeys(
        (
            "straight",
            "maths",
            "printfs",
            "many-sets",
            "nops",
            "constants",
            "texts",
            "names",
            "memory",
            "switches",
            "switch-same",
            "switch-wide",
            "longest",
            "phis",
            "blocks",
            "functions",
            "mid-functions",
            "lines",
            "members",
            "named",
            "chain",
            "callers",
            "downwards",
            "types",
            "many-types",
            "deep-struct",
            "chains",
            "arrays",
            "calls",
            "entries",
            "decorations",
            "many-decorates",
            "composites",
            "big-constant",
        ),
        VALID,
    ),
    "again": b"fault D2 inst 15 word 52\n",
    "deep": OUTSIDE,
    "masks": OUTSIDE,
}
# Those that are checked with the operands of extended instructions too.
EXTENDED = ("straight", "functions", "maths", "printfs", "many-sets")


def large(shape, wanted, *flags):
    """The check of a module of this shape, by `check` with these flags, and what it must answer."""

    def check(program, folder):
        generate = [sys.executable, str(TESTS / "generate"), str(folder), shape]
        subprocess.run(generate, check=True)
        module = folder / f"{shape}.spv"
        own = folder / f"{shape}.json"
        grammar = own if own.exists() else TESTS / "profile.json"
        size = module.stat().st_size
        got = measured(program, ["check", *flags, "--grammar", grammar, module], folder)
        module.unlink()
        if got.out != wanted or got.status != (0 if wanted == VALID else 1):
            return f"  {got.out!r}, exit {got.status}, and not {wanted!r}"
        if got.seconds > SECONDS:
            return f"  {got.seconds:.1f} seconds"
        return f"  {got.space} KiB for {size} bytes" if got.space * KIB > TIMES * size else None

    return check


def checks():
    """All shapes, each under the profile or a grammar of its own. They need layout and ids."""
    layers = frozenset({"layout", "ids"})
    found = [Check(f"large: {shape}", layers, large(shape, wanted)) for shape, wanted in SHAPES.items()]
    return found + [Check(f"large: {shape}, extended", layers, large(shape, VALID, "--extended")) for shape in EXTENDED]
