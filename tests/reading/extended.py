"""The operands of extended instructions, which `--extended` looks at: what becomes of their ids, and rule Y9.

Each id behind the number of an OpExtInst becomes an operand of another sort, an Argument or a Mention; the rules on
ids, roles and values know both. What a set's instructions take stands in sets.json, which has it from Khronos' files.
"""

import json
from dataclasses import replace
from functools import lru_cache
from pathlib import Path

from .decode import Broken

SETS = Path(__file__).resolve().parent / "sets.json"
IMPORT, EXTENDED = 11, 12
OPENCL = "OpenCL.std"
# The name by which llvm-spirv imports a set unless it is told which form debug information is to have.
OTHER_NAMES = {"SPIRV.debug": "OpenCL.DebugInfo.100"}
MORE = "?*"
# The kinds that are ids; any other one is a literal, though decoding reads an id there too.
IDS = ("IdRef", "PairIdRefIdRef")
# What stands before the operands of an extended instruction.
HEAD = ["Type", "Result", "Id", "Word"]


@lru_cache(maxsize=1)
def sets():
    """Of each set that is known the kinds of the operands of each instruction by its number."""
    told = json.loads(SETS.read_text(encoding="utf-8"))
    return {name: {int(number): kinds.split() for number, kinds in known.items()} for name, known in told.items()}


def imported(insts):
    """The name of the set that each id stands for: that of its first OpExtInstImport."""
    found = {}
    for inst in insts:
        if inst.opcode == IMPORT and [it[0] for it in inst.operands[:2]] == ["Result", "Text"]:
            found.setdefault(inst.operands[0][1], inst.operands[1][1])
    return found


def called(names, inst):
    """The name of the set (None of an id that is none), the number, and the operands behind it; None where the
    instruction is no OpExtInst."""
    if inst.opcode != EXTENDED or [it[0] for it in inst.operands[: len(HEAD)]] != HEAD:
        return None
    return names.get(inst.operands[2][1]), inst.operands[3][1], inst.operands[len(HEAD) :]


def kinds_of(name, number):
    """The kinds of the operands of a set's instruction, None where nothing is known of it."""
    return sets().get(OTHER_NAMES.get(name, name), {}).get(number)


def is_id(kinds, place):
    """Whether an id stands at a place behind the number: so where nothing is known of the place."""
    if not kinds or place >= len(kinds) and not kinds[-1].endswith("*"):
        return True
    return kinds[min(place, len(kinds) - 1)].rstrip(MORE) in IDS


def opened_inst(names, inst):
    """An instruction with its ids opened."""
    call = called(names, inst)
    if call is None:
        return inst
    name, number, behind = call
    kinds, sort = kinds_of(name, number), "Argument" if name == OPENCL else "Mention"
    there = [(sort, it[1]) if it[0] == "Id" and is_id(kinds, at) else it for at, it in enumerate(behind)]
    return replace(inst, operands=[*inst.operands[: len(HEAD)], *there])


def opened(insts):
    """The instructions of a module with the ids of the extended ones opened."""
    names = imported(insts)
    return [opened_inst(names, it) for it in insts]


def counts(name, number):
    """How many operands a set's instruction takes at least and at most: no least where the set has none of that number,
    and no most where it takes any."""
    kinds = kinds_of(name, number)
    if kinds is None:
        return None, None
    least = sum(it[-1] not in MORE for it in kinds)
    return least, None if kinds and kinds[-1].endswith("*") else len(kinds)


def check_miscalls(insts):
    """Y9."""
    names = imported(insts)
    for at, inst in enumerate(insts):
        call = called(names, inst)
        if call is None or call[0] != OPENCL:
            continue
        least, most = counts(*call[:2])
        if least is None or len(call[2]) < least or most is not None and len(call[2]) > most:
            raise Broken("Y9", at, inst.word)


# The lines that `explain` has of Y9 behind the place: their keys, each with a semicolon after it.
TOLD = {"Y9": "number;operands;least;most;"}


class ToldOfCalls:
    """Whether the lines of Y9 are true: what judge.py asks of the fault that it judges."""

    def call(self):
        """The name of the set, the number and the operands of the extended instruction that is reported."""
        return called(imported(self.facts.insts), self.inst)

    def is_number(self, text):
        return text == str(self.call()[1])

    def is_operands(self, text):
        return text == str(len(self.call()[2]))

    def is_least(self, text):
        least, _ = counts(*self.call()[:2])
        return text == ("none" if least is None else str(least))

    def is_most(self, text):
        _, most = counts(*self.call()[:2])
        return text == ("none" if most is None else str(most))
