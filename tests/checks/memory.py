"""What a run keeps for ids grows with the module and not with the bound of ids."""

import resource
import struct

from .common import LAYERS, TESTS, Answer, Check, difference, run

GRAMMAR = TESTS / "profile.json"
KERNEL = TESTS / "modules/smallest-kernel.spv"
VALID = Answer(b"valid\n", b"", 0)
VIEWS = (["explain", "--json"], ["show"], ["annotate"], ["annotate", "--html"], ["graph"], ["graph", "--function", "3"])
BOUND = struct.Struct("<I")
PLACE_OF_BOUND = 12
GREATEST_BOUND = 4_194_303
KIB = 1024
STEP = 256 * KIB
MOST = 64 * KIB * KIB


def limited(program, file, folder, limit, command=("check",)):
    """`spv check` of the file, or another command, in an address space of so many bytes."""

    def limit_it():
        resource.setrlimit(resource.RLIMIT_AS, (limit, limit))

    words = [*command, "--grammar", GRAMMAR, file]
    return run(program, words, folder, preexec_fn=limit_it)


def greatest_bound(program, folder):
    """The smallest kernel with the greatest bound, in the least space in which it is read with its own."""
    content = bytearray(KERNEL.read_bytes())
    BOUND.pack_into(content, PLACE_OF_BOUND, GREATEST_BOUND)
    wide = folder / "wide.spv"
    wide.write_bytes(content)
    for limit in range(STEP, MOST, STEP):
        if limited(program, KERNEL, folder, limit) == VALID:
            return difference(VALID, limited(program, wide, folder, limit))
    return f"  the smallest kernel is not read in {MOST} bytes"


def viewed_with_greatest_bound(program, folder):
    """The same of what people and programs are given, with 256 KiB more."""
    content = bytearray(KERNEL.read_bytes())
    BOUND.pack_into(content, PLACE_OF_BOUND, GREATEST_BOUND)
    wide = folder / "wide.spv"
    wide.write_bytes(content)
    for words in VIEWS:
        limits = range(STEP, MOST, STEP)
        least = next((it for it in limits if limited(program, KERNEL, folder, it, words).status == 0), None)
        got = limited(program, wide, folder, (least or MOST) + STEP, words)
        if least is None or (got.err, got.status) != (b"", 0):
            return f"  {words}: in {least} bytes and {STEP} more {got}"
    return None


def checks():
    """Two checks, of the layer of ids and of all layers."""
    return [
        Check("memory: greatest bound", frozenset({"ids"}), greatest_bound),
        Check("memory: greatest bound, as it is shown", frozenset(LAYERS), viewed_with_greatest_bound),
    ]
