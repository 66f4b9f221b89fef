"""`--extended`, by which the operands of extended instructions are looked at: what stays as it is without it.

What it finds is in tests/cases, and beside the second reading in reading.py, explained.py and judged.py.
"""

from reading.decode import Broken, words_of
from reading.extended import EXTENDED
from shapes.changes import split

from .cases import written
from .common import LAYERS as ALL_LAYERS
from .common import Answer, Check, difference, run
from .library import INSIDE
from .many import lines, placed
from .usage import GRAMMAR, KERNEL, MODULES, under
from .versions import order_of, turned

LAYERS = frozenset(ALL_LAYERS)
FLAG = "--extended"
RUN = ("trace", "--function", 10, "--choices", "0", "--limit", 99)
# How many files go into one run.
BATCH = 100


def judged(program, folder, *words, **how):
    """A run with these words under the grammar file of the profile."""
    return run(program, words, folder, **{"env": under(GRAMMAR), **how})


def paths_of(folder):
    """The modules of tests/modules and of texts of cases, each in a file."""
    paths = sorted(MODULES.glob("*.spv"))
    for name, content in written().items():
        paths.append(folder / f"{name}.spv")
        paths[-1].write_bytes(content)
    return paths


def has_calls(path):
    """Whether a module has an extended instruction, as far as its instructions can be told apart."""
    content = path.read_bytes()
    try:
        words = words_of(content)
    except Broken:
        return False
    return any(inst and inst[0] & 0xFFFF == EXTENDED for inst in split(words))


def but_for_profile(answer):
    """An answer as it would be of the profile alone: objects say by which profile the module was judged."""
    return Answer(answer.out.replace(b'"profile":"extended"', b'"profile":"own"'), answer.err, answer.status)


def without_calls(program, folder):
    """Of a module without an extended instruction the flag changes nothing but the profile in objects, of any command
    that takes it."""
    paths = [it for it in paths_of(folder) if not has_calls(it)]
    for command in (["check"], ["explain"], ["explain", "--full"], ["explain", "--json"]):
        for at in range(0, len(paths), BATCH):
            names = paths[at : at + BATCH]
            plain, looked = (judged(program, folder, *command, *it, *names) for it in ([], [FLAG]))
            wrong = difference(plain, but_for_profile(looked))
            if wrong:
                return f"  {command}\n{wrong}"
    for path in paths:
        wrong = difference(*(judged(program, folder, *RUN, *it, path) for it in ([], [FLAG])))
        if wrong:
            return f"  trace {path.name}\n{wrong}"
    return None if len(paths) > BATCH else f"  {len(paths)} modules"


def never_kinder(program, folder):
    """A module that is refused without the flag is refused with it; one that is run with it is run without it alike."""
    paths = paths_of(folder)
    for at in range(0, len(paths), BATCH):
        names = paths[at : at + BATCH]
        plain, looked = (judged(program, folder, "check", *it, "--no-filename", *names).out for it in ([], [FLAG]))
        for path, before, after in zip(names, plain.split(b"\n"), looked.split(b"\n")):
            if before != b"valid" and after == b"valid":
                return f"  {path.name}: {before!r}, and with the flag {after!r}"
    for path in paths:
        got, wanted = (judged(program, folder, *RUN, *it, path) for it in ([FLAG], []))
        if got.status == 0 and got != wanted:
            return f"  trace {path.name}\n{difference(wanted, got)}"
    return None


def told_twice(program, folder):
    """What `check` says with the flag `explain` says first, and `trace` where the module is not valid, in both orders
    of bytes, and of `-` too."""
    content = INSIDE.read_bytes()
    placed(folder, little=content, big=turned(content))
    wanted = judged(program, folder, "check", FLAG, "little.spv")
    if wanted.status != 1 or judged(program, folder, "check", "little.spv") != Answer(b"valid\n", b"", 0):
        return f"  {wanted}"
    for name in ("little.spv", "big.spv"):
        got = [judged(program, folder, *it, FLAG, name) for it in (["check"], RUN)]
        explained = judged(program, folder, "explain", name, FLAG)
        got.append(Answer(explained.out.split(b"\n")[0] + b"\n", explained.err, explained.status))
        with (folder / name).open("rb") as file:
            got.append(judged(program, folder, "check", "-", FLAG, stdin=file))
        wrong = next(filter(None, (difference(wanted, it) for it in got)), None)
        if wrong:
            return f"  {name}\n{wrong}"
    return None if order_of(turned(content)) == "big" else "  no module in the other order"


def of_several_files(program, folder):
    """Each of several files is judged with the flag, and one that is not read costs the others nothing."""
    placed(folder, a=INSIDE.read_bytes(), b=KERNEL.read_bytes(), c=INSIDE.read_bytes())
    fault = judged(program, folder, "check", FLAG, INSIDE).out.decode().strip()
    wanted = Answer(lines(f"a.spv: {fault}", "b.spv: valid", f"c.spv: {fault}"), b"", 1)
    rows = [(["a.spv", "b.spv", "c.spv"], wanted)]
    others = Answer(lines(f"a.spv: {fault}", "b.spv: valid"), b"no.spv: error file\n", 2)
    rows.append((["a.spv", "no.spv", "b.spv"], others))
    rows.append((["--quiet", "a.spv", "b.spv"], Answer(b"", b"", 1)))
    rows.append((["-H", "a.spv"], Answer(lines(f"a.spv: {fault}"), b"", 1)))
    rows.append((["--no-filename", "a.spv", "b.spv"], Answer(lines(fault, "valid"), b"", 1)))
    for words, answer in rows:
        wrong = difference(answer, judged(program, folder, "check", FLAG, *words))
        if wrong:
            return f"  {words}\n{wrong}"
    return None


def checks():
    """All of these."""
    found = [
        ("without extended instructions", without_calls),
        ("never kinder", never_kinder),
        ("told by each command", told_twice),
        ("of several files", of_several_files),
    ]
    return [Check(f"looked at: {name}", LAYERS, run_it) for name, run_it in found]
