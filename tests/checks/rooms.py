"""The README of each crate, beside crates.txt and the crate's code."""

import re

from .believed import CRATES, TOP
from .common import LAYERS, Check

LINE = re.compile(r"^(\w+)([^:]*):(.*)$")
EXAMPLE = re.compile(r"```rust\n(.*?)\n```", re.S)
CALL = re.compile(r"\b(\w+)\(")


def uses():
    """The crates of crates.txt, and what each stands on."""
    found = {}
    for line in (TOP / "crates.txt").read_text(encoding="utf-8").splitlines():
        named = LINE.match(line.split("#")[0])
        if named:
            found[named[1]] = named[3].split()
    return found


def has_call(crate, call):
    """Whether a crate has a function of that name."""
    head = re.compile(rf"\bfn {call}\b")
    return any(head.search(it.read_text(encoding="utf-8")) for it in (CRATES / crate / "src").rglob("*.rt"))


def wrong_in(crate, below):
    """What is wrong with the README of a crate, a line each."""
    path = CRATES / crate / "README.md"
    if not path.is_file():
        yield "is missing"
        return
    text = path.read_text(encoding="utf-8")
    if text.splitlines()[0] != f"# {crate}":
        yield "begins with another name"
    if f"\nStands on: {', '.join(below) or 'nothing'}.\n" not in text:
        yield f"does not say what crates.txt says: Stands on: {', '.join(below) or 'nothing'}."
    for example in EXAMPLE.findall(text):
        first = CALL.search(example)
        if first and not has_call(crate, first[1]):
            yield f"has an example of {first[1]}, which the crate has not"


def are_kept(_program, _folder):
    """Each crate has a README, which says what it stands on, and calls what it has."""
    wrong = [f"  crates/{crate}/README.md {it}" for crate, below in uses().items() for it in wrong_in(crate, below)]
    return "\n".join(wrong) or None


def checks():
    """The one check."""
    return [Check("READMEs of the crates", frozenset(LAYERS[:1]), are_kept)]
