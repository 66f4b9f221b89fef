"""The texts of a module are lent by its image: no program can let the image go before the module.

tests/lent has a program twice, with the same lines. In use_first.rattle the image is let go last,
and the program compiles and runs. In drop_first.rattle it is let go before the module is used, and
the compiler refuses it. (The names do not end in .rt, since rt ci takes such a file only as part of
a crate.) Both are compiled by `rt try`, which proves nothing and takes no work that earlier checks
have kept, in a copy of the repository with one crate more.
"""

import re
import shutil

from .common import TESTS, Check, Unusable, joined

TOP = TESTS.parent
SECONDS = 900
CRATE = "lent: spv_words spv_builtin spv_inst\n"
ERROR = re.compile(r"^(\S+?):(\d+):\d+: error\[(\S+)\]", re.MULTILINE)
MOVED_WHILE_BORROWED = "borrow-e0505"


def lines_of(name):
    """The lines of a program of tests/lent."""
    return (TESTS / "lent" / name).read_text(encoding="utf-8").splitlines()


def compiled(folder, name):
    """Compiles and runs the test of this program in a copy of the repository: status and output."""
    for file in ("HANDLES", "crates.txt"):
        shutil.copy(TOP / file, folder / file)
    with open(folder / "crates.txt", "a", encoding="utf-8") as listed:
        listed.write(CRATE)
    left_out = shutil.ignore_patterns("out", "must-fail")
    shutil.copytree(TOP / "crates", folder / "crates", ignore=left_out)
    crate = folder / "crates/lent"
    (crate / "src").mkdir(parents=True)
    shutil.copy(TESTS / "lent" / name, crate / "src/lib.rt")
    said, status = joined(["rt", "try", "--test"], crate, SECONDS)
    return status, said.decode(errors="replace")


def told(output):
    """The end of an output, for people."""
    return "".join(f"    {line[:300]}\n" for line in output.splitlines()[-8:]).rstrip("\n")


def use_first(_, folder):
    """The image is let go after the last use of the module: it compiles, and its test passes."""
    status, output = compiled(folder, "use_first.rattle")
    if status == 0:
        return None
    return f"  wanted: exit 0\n  got:    exit {status}\n{told(output)}"


def drop_first(_, folder):
    """The image is let go before the module is used: refused there, and for nothing else."""
    place = lines_of("drop_first.rattle").index("    drop(image);") + 1
    status, output = compiled(folder, "drop_first.rattle")
    wanted = [("src/lib.rt", str(place), MOVED_WHILE_BORROWED)]
    if status == 1 and ERROR.findall(output) == wanted:
        return None
    wish = f"exit 1 and error[{MOVED_WHILE_BORROWED}] alone, at src/lib.rt:{place}"
    return f"  wanted: {wish}\n  got:    exit {status}\n{told(output)}"


def checks():
    """Both programs. They need the instructions, whose texts are lent."""
    if sorted(lines_of("use_first.rattle")) != sorted(lines_of("drop_first.rattle")):
        raise Unusable("tests/lent: the two programs must differ in the order of lines alone")
    found = [("use-first", use_first), ("drop-first", drop_first)]
    layers, tools = frozenset({"instructions"}), frozenset({"rt"})
    return [Check(f"lent texts: {name}", layers, run_it, tools) for name, run_it in found]
