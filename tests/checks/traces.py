"""The memory that a run takes: frames are reserved once, so calls make no growth of their own, and
a run without an end is out of memory, of which nothing is written."""

import resource
import subprocess
import sys

from .common import TESTS, Answer, Check, difference, run
from .refused import NO_MEMORY, counted_run, preloaded

STEPS = 122
KERNEL = "3"
GREATEST = (1 << 32) - 1
SPACE = 64 << 20


def generated(folder, *shapes):
    """Writes the modules of these shapes, which are for runs."""
    words = [sys.executable, str(TESTS / "generate"), "--bytes", "4096", str(folder), *shapes]
    subprocess.run(words, check=True)


def traced(folder, shape, limit):
    """The words of a run of this shape's kernel."""
    words = ["trace", "--grammar", TESTS / "profile.json", "--function", KERNEL]
    return [*words, "--limit", str(limit), folder / f"{shape}.spv"]


def growths(program, folder, shape, limit):
    """The answer of a run of this shape's kernel, and how many growths of memory it made."""
    return counted_run(program, traced(folder, shape, limit), folder, preloaded(folder))


def growths_of_steps(program, folder, shape):
    """How many growths all steps of this shape's kernel make more than none, or what went wrong."""
    none, before = growths(program, folder, shape, 0)
    wrong = difference(Answer(b"end limit\n", b"", 0), none)
    if wrong is not None:
        return wrong
    whole, after = growths(program, folder, shape, 10 * STEPS)
    lines = whole.out.decode().splitlines()
    if whole.status != 0 or len(lines) != STEPS + 1 or lines[-1] != "end finished":
        return f"  wanted: {STEPS} steps and 'end finished'\n  got:    {whole}"
    return after - before


def calls_take_no_memory(program, folder):
    """A run through a chain of 40 calls makes as many growths as one of as many steps without a call,
    in modules of as many definitions."""
    generated(folder, "chained", "unchained")
    found = [growths_of_steps(program, folder, shape) for shape in ("chained", "unchained")]
    if isinstance(found[0], int) and found[0] == found[1]:
        return None
    return f"  wanted: as many growths for calls as without\n  got:    {found[0]}\n          {found[1]}"


def endless_is_want_of_memory(program, folder):
    """The greatest limit on a loop without an end, in an address space of 64 MiB."""
    generated(folder, "rounds")

    def limit_it():
        resource.setrlimit(resource.RLIMIT_AS, (SPACE, SPACE))

    got = run(program, traced(folder, "rounds", GREATEST), folder, preexec_fn=limit_it)
    return difference(NO_MEMORY, got)


def checks():
    """Two checks, of the layer of traces."""
    layers = frozenset({"trace"})
    tools = frozenset({"cc"})
    return [
        Check("trace: endless", layers, endless_is_want_of_memory),
        Check("trace: calls take no memory", layers, calls_take_no_memory, tools),
    ]
