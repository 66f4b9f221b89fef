"""What all checks share: the layers, and one run of the program."""

import subprocess
import sys
from dataclasses import dataclass
from pathlib import Path
from typing import Callable, FrozenSet, Optional

TESTS = Path(__file__).resolve().parents[1]
LAYERS = (
    "first path",
    "instructions",
    "layout",
    "ids",
    "types",
    "operations",
    "flow",
    "calls",
    "show",
    "text",
    "trace",
    "use",
    "many files",
    "library",
    "library texts",
    "opencl",
    "standard",
)
SECONDS = 60


class Unusable(Exception):
    """The checks cannot be run: a file of theirs is missing or ill-formed."""


@dataclass(frozen=True)
class Check:
    """One check: its name, the layers and the tools that it needs, and what it does.

    `run` is given the program and an empty folder, and answers None, or what went wrong. The tools
    are those of tools.py, by name.
    """

    name: str
    layers: FrozenSet[str]
    run: Callable[[Path, Path], Optional[str]]
    tools: FrozenSet[str] = frozenset()


def layers_of(text):
    """The layers that a text names, joined by commas."""
    names = [name.strip() for name in text.split(",")]
    for name in names:
        if name not in LAYERS:
            raise Unusable(f"no layer has the name {name!r}")
    return frozenset(names)


def layers_that_stand():
    """The layers that tests/layers lists."""
    lines = (TESTS / "layers").read_text(encoding="utf-8").splitlines()
    return frozenset().union(
        *(layers_of(line) for line in lines if line and not line.startswith("#"))
    )


@dataclass(frozen=True)
class Answer:
    """What a run of the program gave: both outputs and the exit status."""

    out: bytes
    err: bytes
    status: int

    def __str__(self):
        return f"output {shown(self.out)}, error {shown(self.err)}, exit {self.status}"


def shown(text):
    """A text for people, cut where it is long."""
    long = len(text) > 300
    return repr(text[:300])[1:] + (f" and {len(text) - 300} bytes more" if long else "")


def joined(words, folder, seconds=SECONDS, **how):
    """Runs a command without input in this folder: what it prints, on both outputs in order, and how it ends."""
    ended = subprocess.run(
        [str(word) for word in words],
        cwd=folder,
        stdin=subprocess.DEVNULL,
        stdout=subprocess.PIPE,
        stderr=subprocess.STDOUT,
        timeout=seconds,
        check=False,
        **how,
    )
    return ended.stdout, ended.returncode


def run(program, words, folder, seconds=SECONDS, **how):
    """Runs the program with these words in this folder; catches both outputs unless told otherwise."""
    how = {"stdin": subprocess.DEVNULL, "stdout": subprocess.PIPE, **how}
    ended = subprocess.run(
        [str(program), *map(str, words)],
        cwd=folder,
        stderr=subprocess.PIPE,
        timeout=seconds,
        check=False,
        **how,
    )
    return Answer(ended.stdout or b"", ended.stderr, ended.returncode)


@dataclass(frozen=True)
class Run:
    """What a run took, in seconds of the processor and KiB of memory, and its standard output."""

    status: int
    seconds: float
    space: int
    out: bytes


def measured(program, words, folder):
    """Runs the program with these words, and says what it took."""
    out = folder / "out"
    measure = [sys.executable, "-S", TESTS / "checks/measure", out, program, *words]
    ended = subprocess.run(
        [str(word) for word in measure], stdout=subprocess.PIPE, stderr=subprocess.PIPE, timeout=4 * SECONDS, check=True
    )
    status, seconds, space = ended.stdout.split()
    return Run(int(status), float(seconds), int(space), out.read_bytes())


def difference(wanted, got):
    """None where the answers are equal, else both."""
    return None if wanted == got else f"  wanted: {wanted}\n  got:    {got}"
