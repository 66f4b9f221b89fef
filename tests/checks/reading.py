"""What the program says beside what tests/reading says, by tests/compare."""

import subprocess
import sys

from .common import TESTS, Check

COMPARE = TESTS / "compare"
COUNT = 300
SECONDS = 600


def compared(*flags):
    """The check that the two say the same (and explain it alike) of every module of tests/modules, of those of the
    table of types, and of some changed ones."""
    words = [sys.executable, str(COMPARE), "--count", str(COUNT), *flags]

    def check(program, _folder):
        given = [*words, "--program", str(program)]
        ended = subprocess.run(given, stdout=subprocess.PIPE, stderr=subprocess.STDOUT, timeout=SECONDS, check=False)
        return None if ended.returncode == 0 else f"  {ended.stdout.decode(errors='replace')}"

    return check


def checks():
    """A check of all modules, one with the operands of extended instructions, and one of what `--opencl` takes."""
    return [
        Check("second reading", frozenset({"first path"}), compared("--explain")),
        Check("second reading, extended", frozenset({"first path"}), compared("--explain", "--extended")),
        Check("second reading, opencl", frozenset({"opencl"}), compared("--opencl")),
    ]
