"""The modules of tests/cases/misplaced.cases beside spirv-val: it refuses each, and each id, size and index that its
message names stands in the lines that `explain` writes."""

import re

from .cases import laid_out, read_cases
from .common import TESTS, Check, run
from .compared import said_by_peer
from .usage import under

CASES = TESTS / "cases/misplaced.cases"
# An id in a message of spirv-val, as 33[%33], and a number that tells a size or an index.
NAMED = re.compile(r"'(\d+)(?:\[[^]]*\])?'|\bid (\d+)\b")
COUNTED = re.compile(r"\b(?:size is|access index is|structure has|find index) (\d+)\b")


def missing(message, lines):
    """What a message names and the lines do not."""
    ids = {f"%{first or second}" for first, second in NAMED.findall(message)}
    told = set(re.findall(r"%?\w+", lines))
    return sorted((ids | set(COUNTED.findall(message))) - told)


def beside_spirv_val(program, folder):
    """None if spirv-val refuses each module, and names nothing there that `explain` leaves out."""
    wrong = []
    for case in read_cases(CASES):
        words = laid_out(case, folder)
        message = said_by_peer(folder / "F", folder)
        lines = run(program, words, folder, env=under()).out.decode()
        lacks = missing(message, lines) if message else ["a message"]
        if lacks:
            wrong.append(f"  {case.one('case')}: {message}: {', '.join(lacks)}")
    return "\n".join(wrong) or None


def checks():
    """One check, of all its cases."""
    layers = frozenset({"show", "operations"})
    return [Check("misplaced values beside spirv-val", layers, beside_spirv_val, frozenset({"spirv-val"}))]
