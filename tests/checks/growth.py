"""How the work and the memory of runs grow with hostile shapes, by bench/growth."""

from .common import TESTS, Check, joined

GROWTH = TESTS.parent / "bench/growth"
SECONDS = 900
LAYERS = frozenset({"types", "operations", "flow", "calls", "show", "text", "many files"})


def grown(part):
    """The check that no line of `bench/growth` of a part is above its limit."""

    def check(program, folder):
        out, status = joined([GROWTH, "--program", program, part], folder, SECONDS)
        return None if status == 0 else f"  {out.decode(errors='replace')}"

    return check


def checks():
    """One check for each part."""
    tools = frozenset({"valgrind"})
    parts = {part: LAYERS for part in ("modules", "grammars", "memory", "views")} | {"standard": LAYERS | {"standard"}}
    return [Check(f"growth: {part}", layers, grown(part), tools) for part, layers in parts.items()]
