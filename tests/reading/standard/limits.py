"""Limits that every module has to keep: O22. From section 2.17 of Khronos' SPIR-V Specification."""

from collections import Counter
from itertools import count

from ..extended import HEAD, OPENCL, called, imported
from ..forms import FUNCTION, STRUCT
from .module import VARIABLE

EXTENDED, SWITCH, MODES = 12, 251, (16, 331)
# Of each instruction with indexes how many operands stand before them.
BEFORE_INDEXES = {65: 3, 66: 3, 67: 4, 70: 4, 81: 3, 82: 4}
CHARACTERS, MEMBERS, DEPTH, PARAMETERS, INDEXES = 65_535, 16_383, 255, 255, 255
CASES, ARGUMENTS, MODES_OF_ONE = 16_383, 255, 255
GLOBALS, LOCALS = 65_535, 524_287


def too_long(module):
    """Texts."""
    for at, inst in enumerate(module.insts):
        if any(it[0] == "Text" and len(it[1]) > CHARACTERS for it in inst.operands):
            yield at


def too_deep(module):
    """Structs, by the structs that are members of them."""
    depth = {}
    for at, inst in module.all_of(STRUCT):
        members = [it[1] for it in inst.operands[1:]]
        depth[inst.result] = 1 + max((depth.get(it, 0) for it in members), default=0)
        if len(members) > MEMBERS or depth[inst.result] > DEPTH:
            yield at


def too_many(module):
    """Parameters, indexes, cases and arguments."""
    names = imported(module.insts)
    for at, inst in enumerate(module.insts):
        length = len(inst.operands)
        is_library = inst.opcode == EXTENDED and called(names, inst)[0] == OPENCL
        if (
            inst.opcode == FUNCTION
            and length - 2 > PARAMETERS
            or inst.opcode in BEFORE_INDEXES
            and length - BEFORE_INDEXES[inst.opcode] > INDEXES
            or inst.opcode == SWITCH
            and sum(it[0] == "Number" for it in inst.operands) > CASES
            or is_library
            and length - len(HEAD) > ARGUMENTS
        ):
            yield at


def too_many_together(module):
    """Modes of a function, and variables."""
    modes, inside, outside = Counter(), count(1), count(1)
    for at, inst in module.all_of(*MODES, VARIABLE):
        if inst.opcode in MODES:
            of = inst.operands[0][1]
            modes[of] += 1
            if modes[of] > MODES_OF_ONE:
                yield at
        elif module.types.places.function[at] is None:
            if next(outside) > GLOBALS:
                yield at
        elif next(inside) > LOCALS:
            yield at


def O22(module):
    """A limit is passed."""
    for each in (too_long, too_deep, too_many, too_many_together):
        yield from each(module)
