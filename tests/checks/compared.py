"""What docs/COMPARED.md says of spirv-val and of the program: both are run on each module that it names.

The page's tables of modules have the module's name first, and then what one program says, or both do. In one of them
that is what the program says with `--extended`, and without it the module is valid; in one what it says with
`--opencl`, and without it, with `--extended` too, the module is valid; in those of modules of `--opencl` it is what the
program says with that option alone. A module is of version 1.6, or of the one that the first line of its text names.
What `spv --opencl` is to say the second reading has to say too.
"""

import re
import subprocess
from dataclasses import dataclass
from typing import Optional, Tuple

from reading.profiles import Profile
from reading.verdict import grammar_in, verdict

from .common import SECONDS, TESTS, Answer, Check, Unusable, difference, run
from .khronos import GRAMMAR
from .usage import under

PAGE = TESTS.parent / "docs/COMPARED.md"
MODULES = TESTS / "compared"
KERNEL = TESTS / "modules/smallest-kernel.spvasm"
# How many lines of a text are its header.
HEADER = 5
OWN, EXTENDED, OPENCL = (profile.flags for profile in Profile)
VERSION = re.compile(r"; Version: (1\.[0-6])\n")


@dataclass(frozen=True)
class Head:
    """The head of a table of modules: the flags of the columns with what the program says, each a column or none where
    it says `valid`, and the column of what spirv-val says, none where it accepts."""

    ours: Tuple[Tuple[Tuple[str, ...], Optional[int]], ...]
    theirs: Optional[int]


def told(ours, extended, theirs):
    """A table of what the program says, the same with --extended where there is no column of that."""
    return Head(((tuple(OWN), ours), (tuple(EXTENDED), extended or ours)), theirs)


def told_of_all(opencl, theirs):
    """A table of modules that are valid without --opencl, and of what the program says with it."""
    return Head((*told(None, None, theirs).ours, (tuple(OPENCL), opencl)), theirs)


def told_with_opencl(ours, theirs):
    """A table of what the program says with --opencl."""
    return Head(((tuple(OPENCL), ours),), theirs)


HEADS = {
    "| Module | What is wrong | spv --opencl | spirv-val |": told_of_all(2, 3),
    "| Module | What is wrong | spirv-val |": told_of_all(None, 2),
    "| Module | What is wrong | spv --extended | spirv-val |": told(None, 2, 3),
    "| Module | Rule | spv |": told(2, None, None),
    "| Module | spv | spirv-val |": told(1, None, 2),
    "| Module of `--opencl` | What spirv-val asks | Why spv does not | spirv-val |": told_with_opencl(None, 3),
    "| Module of `--opencl` | What is not asked | Why |": told_with_opencl(None, None),
    "| Module of `--opencl` | Rule | spv --opencl |": told_with_opencl(2, None),
    "| Module of `--opencl` | spv --opencl | spirv-val |": told_with_opencl(1, 2),
}


def rows():
    """The rows of the page: a module's name, the program's lines with their flags, and what spirv-val says (None: it
    accepts)."""
    head = None
    for line in PAGE.read_text(encoding="utf-8").splitlines():
        if line in HEADS:
            head = HEADS[line]
        elif not line.startswith("|"):
            head = None
        elif head and not line.startswith("|---"):
            cells = [cell.strip() for cell in line.strip("|").split("|")]
            ours = [(flags, cells[at].strip("`") if at else "valid") for flags, at in head.ours]
            yield cells[0], ours, cells[head.theirs] if head.theirs else None


def environment(text):
    """The environment of spirv-as and spirv-val for a module: that of its version."""
    said = VERSION.match(text.read_text(encoding="utf-8"))
    return f"spv{said[1] if said else '1.6'}"


def assembled(name, folder):
    """The module of a text, and its environment."""
    module, text = folder / "module.spv", MODULES / f"{name}.spvasm"
    words = ["spirv-as", "--target-env", environment(text), "--preserve-numeric-ids", "-o", module, text]
    subprocess.run(words, check=True, timeout=SECONDS)
    return module, environment(text)


def said_by_peer(module, folder, target="spv1.6"):
    """What spirv-val says of a module: its first line without the place, or None where it accepts it."""
    words = ["spirv-val", "--target-env", target, module]
    ended = subprocess.run(words, cwd=folder, capture_output=True, text=True, timeout=SECONDS, check=False)
    if ended.returncode == 0:
        return None
    first = ended.stderr.splitlines()[0]
    return first.split(": ", 2)[-1].strip()


def as_said(name, ours, theirs, program, folder):
    """None if both programs say of the module what the page says."""
    module, target = assembled(name, folder)
    peer = said_by_peer(module, folder, target)
    if peer != theirs:
        return f"  spirv-val\n  wanted: {theirs}\n  got:    {peer}"
    for flags, line in ours:
        wanted = Answer(f"{line}\n".encode(), b"", 0 if line == "valid" else 1)
        for grammar in ([], ["--grammar", GRAMMAR]):
            wrong = difference(wanted, run(program, ["check", *grammar, *flags, module], folder, env=under()))
            if wrong:
                return wrong
    return None


def of_a_later_version(program, folder):
    """A module of 1.0 with OpModuleProcessed, of 1.1: refused by spirv-val as the page says, valid by `--as-1.6`."""
    module, text = folder / "module.spv", folder / "text"
    lines = KERNEL.read_text(encoding="utf-8").splitlines()[HEADER:]
    at = next(number for number, line in enumerate(lines) if "OpTypeVoid" in line)
    text.write_text("\n".join([*lines[:at], 'OpModuleProcessed "by nobody"', *lines[at:], ""]), encoding="utf-8")
    words = ["spirv-as", "--target-env", "spv1.1", "--preserve-numeric-ids", "-o", module, text]
    subprocess.run(words, check=True, timeout=SECONDS)
    content = module.read_bytes()
    module.write_bytes(content[:4] + bytes((0, 0, 1, 0)) + content[8:])
    peer = said_by_peer(module, folder)
    if not peer or f"*{peer}*" not in PAGE.read_text(encoding="utf-8"):
        return f"  spirv-val: {peer}"
    rows = [([], Answer(b"fault W5\n", b"", 1)), (["--as-1.6"], Answer(b"valid\n", b"", 0))]
    wrong = [difference(wanted, run(program, ["check", *it, module], folder, env=under())) for it, wanted in rows]
    return next(filter(None, wrong), None)


def all_named(named):
    """None if the page names each module of the folder once."""
    there = sorted(path.stem for path in MODULES.glob("*.spvasm"))
    return None if sorted(named) == there else f"  named: {sorted(named)}\n  there: {there}"


def said_with_opencl(ours):
    """What a row wants the program to say with --opencl, None where it wants nothing of that."""
    return dict(ours).get(tuple(OPENCL))


def as_read(found):
    """The check that the second reading says of each module of --opencl what the page says."""

    def check(_program, folder):
        grammar, wrong = grammar_in(GRAMMAR), []
        for name, ours, _ in found:
            wanted = said_with_opencl(ours)
            if wanted:
                module, _ = assembled(name, folder)
                got = verdict(grammar, module.read_bytes(), profile=Profile.OPENCL)
                wrong += [] if got == wanted else [f"  {name}: {got}"]
        return "\n".join(wrong) or None

    return check


def checks():
    """One check for each module of the page, one that it names all of them, and one of the second reading."""
    found = list(rows())
    if not found:
        raise Unusable("docs/COMPARED.md has no table of modules")
    layers, tools = frozenset({"trace"}), frozenset({"khronos", "spirv-val"})

    def check(name, ours, theirs):
        return Check(
            f"beside spirv-val: {name}",
            frozenset({"standard"}) if said_with_opencl(ours) else layers,
            lambda program, folder: as_said(name, ours, theirs, program, folder),
            tools,
        )

    names = [name for name, _, _ in found]
    whole = Check("beside spirv-val: all modules", layers, lambda *_: all_named(names))
    later = Check("beside spirv-val: an instruction of a later version", layers, of_a_later_version, tools)
    read = Check("beside spirv-val: read", frozenset(), as_read(found), tools)
    return [whole, later, read, *(check(*row) for row in found)]
