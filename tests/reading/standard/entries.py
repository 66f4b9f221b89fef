"""Rules on entry points and their modes: O3, O4 and O5."""

from collections import defaultdict

from ..flow import CALL, closure
from ..order import uses
from .module import ENTRY_POINT

EXECUTION_MODE = 16
INPUT, OUTPUT = 1, 3
# The minor version from which on an interface has all variables that are used.
OF_ALL = 4


def O3(module):
    """Two entry points have one model and one name."""
    earlier = set()
    for at, inst in module.all_of(ENTRY_POINT):
        key = (inst.operands[0][2], inst.operands[2][1])
        if key in earlier:
            yield at
        earlier.add(key)


def used_and_called(module):
    """Of each definition the variables that its instructions use, and the functions that it calls."""
    used, calls = defaultdict(set), defaultdict(set)
    for body in module.bodies:
        function = module.insts[body.first].result
        for at in (it for numbers in body.blocks.values() for it in numbers):
            inst = module.insts[at]
            used[function].update(of for of, _ in uses(inst) if module.is_global(of))
            if inst.opcode == CALL:
                calls[function].add(inst.operands[2][1])
    return used, calls


def is_asked(module, of):
    """Whether an interface may name a variable, and names it if it is used: from 1.4 on any, before one of the storage
    classes Input and Output."""
    return module.minor >= OF_ALL or module.storage_class(of) in (INPUT, OUTPUT)


def O4(module):
    """The interface of an entry point does not have the variables of its call tree, or has one twice."""
    used, calls = used_and_called(module)
    for at, inst in module.all_of(ENTRY_POINT):
        interface = [it[1] for it in inst.operands[3:]]
        tree = closure(calls, {inst.operands[1][1]}) if any(used.values()) else ()
        wanted = set().union(*(used[it] for it in tree if it in used))
        if module.minor >= OF_ALL:
            is_sound = len(set(interface)) == len(interface)
        else:
            is_sound = all(is_asked(module, of) for of in interface)
            wanted = {of for of in wanted if is_asked(module, of)}
        if not is_sound or not wanted <= set(interface):
            yield at


def O5(module):
    """An OpExecutionMode has an id behind its mode."""
    for at, inst in module.all_of(EXECUTION_MODE):
        if any(it[0] == "Id" for it in inst.operands[2:]):
            yield at
