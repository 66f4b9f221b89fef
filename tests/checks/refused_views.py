"""Modules that break a rule and texts that fail, with each growth of memory refused in turn: what is told of them as
objects, for reading, on a page, in a picture, and by `asm --explain`.

Each run must answer `error memory`, or what it answers where nothing is refused; and write nothing else.
refused_calls.py does so with other command lines, and with their reads and writes; refused.py with the lines of
`explain`.
"""

from .common import LAYERS as ALL_LAYERS
from .common import TESTS, Check
from .refused import chosen, library
from .refused_calls import GROWTH, all_refused, counted, first_of, is_told, laid_out, line, made

LAYERS = frozenset(ALL_LAYERS)
MODULE = "module.spv"
VIEWS = (["explain", "--json"], ["annotate"], ["annotate", "--html"], ["graph"])
# Larger texts fail as small ones do.
MOST_OCTETS = 4_096


def growths_told(it, program, folder, preload):
    """None if a command line answers rightly with each growth refused, else what is wrong."""
    wanted, whole, count = counted(it, GROWTH, program, folder, preload)
    first = first_of(it, GROWTH, count, program, folder, preload)
    found = all_refused(it, GROWTH, first, program, folder, preload)
    if not found or len(found) == 1 or found[-1].is_refused or found[-1].got != wanted:
        return f"  {it}: none refused at last: {found and found[-1]}"
    for run in found[:-1]:
        if not is_told(it, GROWTH, wanted, run.got) and run.got != wanted or run.made not in (whole, None, b""):
            return f"  {it}: growth {run.first} refused\n  wanted: {wanted}\n  got:    {run.got}"
    return None


def module_viewed(name):
    """The check of a module, by each of the commands."""

    def check(program, folder):
        laid_out(folder)
        preload = library(folder)
        (folder / MODULE).write_bytes((TESTS / f"modules/{name}.spv").read_bytes())
        lines = [line(*words, MODULE, names=(MODULE,) * ("--json" in words)) for words in VIEWS]
        return next(filter(None, (growths_told(it, program, folder, preload) for it in lines)), None)

    return check


def texts_explained(program, folder):
    """The texts of tests/texts that fail, by `asm --explain`."""
    laid_out(folder)
    preload, codes = library(folder), set()
    for path in sorted((TESTS / "texts").glob("*.spvasm")):
        if path.stat().st_size > MOST_OCTETS:
            continue
        it = line("asm", "--explain", "--out", "made.spv", path)
        answer, _, _ = counted(it, GROWTH, program, folder, preload)
        if answer.status != 1:
            continue
        codes.add(answer.out[:8])
        wrong = growths_told(it, program, folder, preload)
        if wrong or made(folder):
            return wrong or f"  {it}: {made(folder)}"
    return None if len(codes) >= 4 else f"  texts of {sorted(codes)} alone"


def checks():
    """One check for each module that tests/refuse/explained names and tests/modules has, and one of the texts."""
    tools = frozenset({"cc"})
    names = [name for name, _ in chosen("explained") if (TESTS / f"modules/{name}.spv").exists()]
    found = [(f"views of {name}", module_viewed(name)) for name in names]
    found.append(("asm --explain of texts that fail", texts_explained))
    return [Check(f"each growth refused: {name}", LAYERS, run_it, tools) for name, run_it in found]
