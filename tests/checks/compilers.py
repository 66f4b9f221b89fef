"""Random kernels that a compiler made, beside spirv-val: a few of tests/real/random, always the same."""

import sys

from .common import LAYERS as ALL_LAYERS
from .common import TESTS, Check, joined

LAYERS = frozenset(ALL_LAYERS)
SCRIPT = TESTS / "real/random"
COUNT = "4"
SECONDS = 300


def few(*flags):
    """The check that each module of some kernels is judged as spirv-val judges it."""

    def check(program, folder):
        words = [sys.executable, SCRIPT, "--program", program, "--count", COUNT, *flags]
        said, status = joined(words, folder, SECONDS)
        return None if status == 0 else f"  {said.decode(errors='replace')}"

    return check


def checks():
    """Kernels of the profile, and those of the option `--opencl`, of which the second reading is asked too."""
    tools = frozenset({"clang", "llvm-spirv", "spirv-val"})
    wide = tools | {"khronos"}
    return [
        Check("random kernels of a compiler", LAYERS, few(), tools),
        Check("random kernels of a compiler, opencl", frozenset({"opencl"}), few("--opencl"), wide),
        Check("random kernels of a compiler, opencl: read", frozenset(), few("--opencl", "--reading"), wide),
    ]
