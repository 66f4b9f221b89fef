"""Khronos' own grammar file, which Debian's package spirv-headers has.

The file is read where it lies, and no copy of it is kept in the repository.
"""

import json
from pathlib import Path

from .common import TESTS, Answer, Check, difference, run

GRAMMAR = Path("/usr/include/spirv/unified1/spirv.core.grammar.json")
VERSION = (1, 6)


def missing():
    """Why there is no file to read, or None."""
    if not GRAMMAR.is_file():
        return f"there is no {GRAMMAR} (Debian's package spirv-headers)"
    content = json.loads(GRAMMAR.read_text(encoding="utf-8"))
    version = (content.get("major_version"), content.get("minor_version"))
    if version != VERSION:
        return f"{GRAMMAR} is that of version {version[0]}.{version[1]}, and not 1.6"
    return None


def under_khronos(content, wanted):
    """The check of a module of these bytes under Khronos' grammar."""

    def check(program, folder):
        module = folder / "module.spv"
        module.write_bytes(content)
        return difference(wanted, run(program, ["check", "--grammar", GRAMMAR, module], folder))

    return check


def checks():
    """The smallest kernel and an empty file. They need the instructions, for all of its kinds."""
    kernel = (TESTS / "modules/smallest-kernel.spv").read_bytes()
    found = [
        ("smallest-kernel", under_khronos(kernel, Answer(b"valid\n", b"", 0))),
        ("empty-file", under_khronos(b"", Answer(b"fault W2\n", b"", 1))),
    ]
    layers, tools = frozenset({"instructions"}), frozenset({"khronos"})
    return [Check(f"Khronos' grammar: {name}", layers, run_it, tools) for name, run_it in found]
