"""Command lines with each growth of memory, each open, each read and each write refused in turn.

Each run must end with its numbered refusal, and write nothing but a beginning of what is due. Where a growth is
refused, what `--verbose` says behind the line of an error may be left out. The growths of making the built-in table are
refused in one of the lines alone, but for the last ones. refused.py does so with the cases.
"""

import json
import os
import struct
from dataclasses import dataclass, field
from typing import List, Optional, Tuple

from .common import LAYERS as ALL_LAYERS
from .common import TESTS, Answer, Check, shown
from .refused import counted_run, each_run, library
from .usage import BROKEN, GRAMMAR, KERNEL, TEXT, under

LAYERS = frozenset(ALL_LAYERS)
THIN = TESTS / "grammars/thin.json"
INSIDE = TESTS / "modules/inside-of-an-extended-instruction.spv"
OLD = "old.spv"
GROWTH, OPEN, READ, WRITE = "growth", "open", "read", "write"
# What a refused call is reported as.
TOLD = {GROWTH: b"error memory", OPEN: b"error file", READ: b"error file", WRITE: b"error file"}
MADE = "made.spv"
LAST_OF_TABLE = 10


@dataclass(frozen=True)
class Line:
    """A command line: its words, the calls it makes, the file of its standard input, the names before its lines."""

    words: Tuple
    calls: Tuple[str, ...]
    given: Optional[str] = None
    names: Tuple[str, ...] = field(default=())

    def __str__(self):
        return " ".join(str(getattr(word, "name", word)) for word in self.words)


def line(*words, calls=(OPEN, READ, WRITE), **how):
    """A command line with these words."""
    return Line(words, tuple(calls), **how)


WHOLE = line("check", KERNEL)
LINES = [
    WHOLE,
    line("grammar", calls=[WRITE]),
    line("grammar", THIN),
    line("grammar", "-", calls=[READ, WRITE], given="thin.json"),
    line("grammar", "refused.json"),
    line("check", "-", calls=[READ, WRITE], given="kernel.spv"),
    line("check", "--as-1.6", OLD),
    line("check", "-H", "--as-1.6", OLD, names=(OLD,)),
    line("check", "--extended", "inside.spv"),
    line("explain", "--json", "--extended", "inside.spv", names=("inside.spv",)),
    line("check", "--no-filename", "kernel.spv", "broken.spv", names=("kernel.spv", "broken.spv")),
    line("check", "kernel.spv", "broken.spv", names=("kernel.spv", "broken.spv")),
    line("check", "--quiet", "broken.spv", calls=[OPEN, READ]),
    line("check", "--quiet", "kernel.spv", "broken.spv", calls=[OPEN, READ], names=("kernel.spv", "broken.spv")),
    line("explain", "-H", "--as-1.6", "broken.spv", names=("broken.spv",)),
    line("explain", OLD),
    line("explain", "--full", "broken.spv"),
    line("check", "--json", "broken.spv", names=("broken.spv",)),
    line("check", "--json", "kernel.spv", "broken.spv", names=("kernel.spv", "broken.spv")),
    line("check", "--json", "--quiet", "broken.spv", calls=[OPEN, READ], names=("broken.spv",)),
    line("explain", "--json", "--as-1.6", OLD, names=(OLD,)),
    line("explain", "--json", "broken.spv", "kernel.spv", names=("kernel.spv", "broken.spv")),
    line("rules", "--json", calls=[WRITE]),
    line("rules", "--json", "a1", calls=[WRITE]),
    line("show", "--as-1.6", OLD),
    line("annotate", "--as-1.6", OLD),
    line("annotate", "--color", "always", "broken.spv"),
    line("annotate", "--function", 10, "broken.spv"),
    line("annotate", "-", calls=[READ, WRITE], given="kernel.spv"),
    line("annotate", "--html", "broken.spv"),
    line("annotate", "--html", "--function", 10, "broken.spv"),
    line("graph", "--as-1.6", OLD),
    line("graph", "--function", 10, "broken.spv"),
    line("graph", "-", calls=[READ, WRITE], given="kernel.spv"),
    line("trace", "--as-1.6", "--function", 3, "--limit", 9, OLD),
    line("trace", "--extended", "--function", 3, "--limit", 9, KERNEL),
    line("asm", "--out", MADE, TEXT),
    line("asm", "--out", MADE, "text", calls=[OPEN, READ, WRITE]),
    line("asm", "--out", "./text", "text", calls=[WRITE]),
    line("asm", "--explain", "--out", MADE, TEXT),
    line("asm", "--explain", "--out", MADE, "faulty", calls=[READ, WRITE]),
    line("asm", "--explain", "--out", "-", "faulty"),
    line("rules", "a1", calls=[WRITE]),
    line("rules", "J4", calls=[WRITE]),
    line("rules", calls=[WRITE]),
    line("chek", "--verbose", calls=[WRITE]),
    line("check", "--verbose", calls=[WRITE]),
    line("check", "--verbose", "absent.spv", calls=[WRITE]),
    line("check", "--verbose", "-H", "absent.spv", calls=[WRITE], names=("absent.spv",)),
    # (the module is read before the grammar file is judged, and a read of it that fails is then not told)
    line("check", "--verbose", "--grammar", "bad.json", KERNEL, calls=[OPEN, WRITE]),
    line("grammar", "--verbose", "bad.json"),
    line("trace", "--verbose", "--function", 1, "--limit", 9, KERNEL),
    line("asm", "--verbose", "--out", "./text", "text", calls=[WRITE]),
]
BAD = b'{"instructions":[{"opname":"OpA","opcode":1,"operands":[{"kind":"X"}]}],"operand_kinds":[]}'


def laid_out(folder):
    """The files that the lines name."""
    kernel = KERNEL.read_bytes()
    (folder / "kernel.spv").write_bytes(kernel)
    (folder / "broken.spv").write_bytes(BROKEN.read_bytes())
    (folder / "inside.spv").write_bytes(INSIDE.read_bytes())
    (folder / OLD).write_bytes(kernel[:4] + struct.pack("<I", 0x00010200) + kernel[8:])
    (folder / "text").write_bytes(TEXT.read_bytes())
    (folder / "faulty").write_bytes(TEXT.read_bytes().replace(b"Physical64", b"Physical65"))
    (folder / "thin.json").write_bytes(THIN.read_bytes())
    (folder / "refused.json").write_bytes(b"[1")
    (folder / "bad.json").write_bytes(BAD)


def made(folder):
    """What was made, or None."""
    path = folder / MADE
    return path.read_bytes() if path.exists() else None


def refusing(call, preload, all_later):
    """An environment in which the library that refuses looks at these calls."""
    chosen = {"REFUSE_CALL": call} if call != GROWTH else {}
    return {**under(), "LD_PRELOAD": str(preload), **chosen, **({"REFUSE_ALL": "1"} if all_later else {})}


def counted(it, call, program, folder, preload):
    """A run of a line with no call refused: its answer, what it made, and how many of these calls it makes."""
    (folder / MADE).unlink(missing_ok=True)
    with open(folder / it.given if it.given else os.devnull, "rb") as given:
        got, count = counted_run(program, it.words, folder, refusing(call, preload, False), stdin=given)
    return got, made(folder), count


def all_refused(it, call, first, program, folder, preload, all_later=False):
    """The runs of a line with each call from the first on refused in turn, as stretches that ended alike; or None."""
    (folder / MADE).unlink(missing_ok=True)
    environment = {**refusing(call, preload, all_later), "REFUSE_MADE": MADE}
    with open(folder / it.given if it.given else os.devnull, "rb") as given:
        return each_run(program, it.words, folder, environment, first, stdin=given)


def is_beginning(wanted, got):
    """Whether what was written or made is a beginning of what is due."""
    return not got or bool(wanted) and wanted.startswith(got)


def lines_of(text):
    """The lines of a text, without their line feeds."""
    return text.split(b"\n")[:-1]


def are_lines_of(wanted, got):
    """Whether these are lines of a text, in its order, some of which may be missing."""
    rest = iter(lines_of(wanted))
    return got.endswith(b"\n") and all(any(it == other for other in rest) for it in lines_of(got)) or not got


def objects_of(it, call):
    """What `--json` writes of a file for which this call is refused: a line for each file that is named."""
    names = it.names or tuple(str(word) for word in it.words[-1:])
    error = TOLD[call].decode().split(" ")[1]
    told = [{"file": name, "verdict": "error", "error": error} for name in names]
    return {json.dumps(each, separators=(",", ":"), ensure_ascii=False).encode() for each in told}


def is_told(it, call, wanted, got):
    """Whether an answer is the refusal of a call, with nothing in part: or the answer to the other files of several."""
    told = {TOLD[call], *(name.encode() + b": " + TOLD[call] for name in it.names)}
    if "--json" in it.words:
        kept = [line for line in lines_of(got.out) if line not in objects_of(it, call)]
        got = Answer(b"".join(line + b"\n" for line in kept) + got.out.rpartition(b"\n")[2], got.err, got.status)
    err = lines_of(got.err)
    due = [line for line in err if line not in told]
    is_named = len(due) < len(err) or call == WRITE
    is_rest = "--verbose" in it.words or all(line in lines_of(wanted.err) for line in due)
    is_out = is_beginning(wanted.out, got.out) or len(it.names) > 1 and are_lines_of(wanted.out, got.out)
    return got.status == 2 and is_named and is_rest and is_out


def is_shorter(it, wanted, got):
    """Whether an answer is the wanted one, or lacks only what follows the line of an error."""
    head = wanted.err.split(b"\n")[0] + b"\n"
    return got == wanted or "--verbose" in it.words and got == Answer(wanted.out, head, wanted.status)


def first_of(it, call, count, program, folder, preload):
    """The first call that is refused: the growths of making the built-in table are left out but for the last ones."""
    if call != GROWTH or it is WHOLE:
        return 1
    _, _, of_table = counted(line("check", "/dev/null"), call, program, folder, preload)
    return max(of_table - LAST_OF_TABLE, 1) if count > of_table else 1


def each_refused(it, call, all_later=False):
    """The check that a line answers rightly with each call of a sort refused in turn."""

    def check(program, folder):
        laid_out(folder)
        preload, text = library(folder), (folder / "text").read_bytes()
        wanted, whole, count = counted(it, call, program, folder, preload)
        if count == 0:
            return f"  {call}: no calls, {wanted}"
        first = first_of(it, call, count, program, folder, preload)
        found = all_refused(it, call, first, program, folder, preload, all_later)
        if not found or found[-1].is_refused or found[-1].got != wanted:
            return f"  {call}: none refused at last: {found and found[-1]}"
        for run_of in found[:-1]:
            fine = is_told(it, call, wanted, run_of.got) or call == GROWTH and is_shorter(it, wanted, run_of.got)
            if not fine or not is_beginning(whole, run_of.made):
                made_of = shown(run_of.made or b"")
                return f"  {call} {run_of.first} refused\n  wanted: {wanted}\n  got:    {run_of.got}, made {made_of}"
        return None if (folder / "text").read_bytes() == text else "  the text was written over"

    return check


def checks():
    """For each line growths, one and all from one on, and the other calls that it makes."""
    found: List[Tuple[str, Line, str, bool]] = []
    for it in LINES:
        found += [(f"{call}s", it, call, False) for call in (GROWTH, *it.calls)]
        found.append(("growths and all later", it, GROWTH, True))
    tools = frozenset({"cc"})
    return [
        Check(f"each refused: {name}, {it}", LAYERS, each_refused(it, call, later), tools)
        for name, it, call, later in found
    ]
