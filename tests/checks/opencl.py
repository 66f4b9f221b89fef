"""What `--opencl` takes: the answers of its cases beside the second reading, and kernels of a compiler, as they are and
changed.

That the second reading answers the cases as they want needs no program.
"""

import shlex
import sys

from reading.profiles import Profile
from reading.verdict import verdict

from .cases import OPENCL, all_cases, grammar_read, pieces
from .common import TESTS, Check, joined

SECONDS = 600
MUTANTS = "1000"
CHECK = ["check", *Profile.OPENCL.flags]


def told(case):
    """What a case wants of `check --opencl`, None of any other case."""
    words = [it for it in shlex.split(case.one("run")) if it not in Profile.EXTENDED.flags]
    is_one = words == [*CHECK, "--grammar", "G", "F"] and case.one("G") == OPENCL and not case.all("old")
    return case.one("out") if is_one else None


def cases_read(_program, _folder):
    """None where the second reading says of each such case what it wants."""
    wrong, count = [], 0
    for case in all_cases():
        wanted = told(case)
        if wanted is None:
            continue
        content = b"".join(part * times for part, times in pieces(case))
        got = verdict(grammar_read(OPENCL), content, profile=Profile.OPENCL)
        wrong += [] if got == wanted else [f"  {case.one('case')}: {got}, and not {wanted}"]
        count += 1
    return "\n".join(wrong) or (None if count > 50 else f"  {count} cases")


def written():
    """The modules that cases of the option have as texts, each by the name of its case."""
    found = [case for case in all_cases() if case.one("G") == OPENCL and case.all("text")]
    return {case.one("case"): pieces(case)[0][0] for case in found}


def scripted(name, *more):
    """The check that a script of tests/real finds nothing wrong with the program."""

    def check(program, folder):
        words = [sys.executable, TESTS / "real" / name, "--program", program, *more]
        said, status = joined(words, folder, SECONDS)
        return None if status == 0 else f"  {said.decode(errors='replace')}"

    return check


def checks():
    """The cases, and the kernels of a compiler as they are and changed."""
    tools, stands = frozenset({"khronos", "llvm-spirv"}), frozenset({"opencl"})
    return [
        Check("opencl: the second reading of the cases", frozenset(), cases_read),
        Check("opencl: real kernels", stands, scripted("run", "--opencl"), tools),
        Check("opencl: changed kernels", stands, scripted("mutants", "--count", MUTANTS), tools),
    ]
