"""Hostile grammar files, each with a module and a text that are read under it.

Each shape is given how many bytes the three have together. A grammar is that of profile.json with more in it, so that
the modules are valid but where a shape says otherwise.
"""

import json
from dataclasses import dataclass
from pathlib import Path
from typing import Optional

from . import opcodes as op
from .module import MOST_BYTES, ONE, POINTER, Module, closed, kernel, opened

PROFILE = Path(__file__).resolve().parents[1] / "profile.json"
NOP, CAPABILITY, STORE, BRANCH = 0, 17, 62, 249
# The first number of an enumerant or an opcode that profile.json does not have.
FREE = 1_024
TEXT_HEAD = "; SPIR-V\n; Version: 1.6\n; Generator: 0\n; Bound: {bound}\n; Schema: 0\n"

# Names that all have the hash 0 by the hash of the toolchain's maps (FoldHasher), whose seed is known: the first 16
# octets and the length give a state of which each octet may stand in a name; the next 8 are that state, and make a
# factor 0; so the last 8 say nothing. One of 16 random octets in 50,000 gives such a state.
CHOSEN = "VX_s_Eyc6b68FoV8i27mmsDe"


def chosen(number):
    """A name of the hash 0."""
    return f"{CHOSEN}{number:08}"


@dataclass
class Hostile:
    """A grammar, a module and, where its text is read, too, that text."""

    grammar: dict
    module: Module
    text: Optional[str] = None
    # How often the module is to be checked in one run.
    times: int = 1

    def write(self, folder, name):
        """Writes what there is: NAME.json, NAME.spv and NAME.spvasm."""
        (folder / f"{name}.json").write_text(json.dumps(self.grammar), encoding="utf-8")
        self.module.write(folder / f"{name}.spv")
        if self.text is not None:
            head = TEXT_HEAD.format(bound=self.module.next)
            (folder / f"{name}.spvasm").write_text(head + self.text, encoding="utf-8")


def profile():
    """The tree of profile.json."""
    return json.loads(PROFILE.read_text(encoding="utf-8"))


def entry(grammar, opcode):
    """The instruction of an opcode."""
    return next(it for it in grammar["instructions"] if it["opcode"] == opcode)


def kind(grammar, name):
    """The kind of a name."""
    return next(it for it in grammar["operand_kinds"] if it["kind"] == name)


def enumerant(grammar, of, name):
    """The enumerant of a kind."""
    return next(it for it in kind(grammar, of)["enumerants"] if it["enumerant"] == name)


def body(put, capabilities=()):
    """A kernel with more capabilities, in whose block `put` puts instructions."""
    module = Module(MOST_BYTES // 4)
    for value in capabilities:
        module.put(CAPABILITY, value)
    opened(module)
    kernel(module)
    put(module)
    closed(module)
    return module


def nops(count):
    """Puts the shortest instructions."""
    return lambda module: module.words.extend([1 << 16] * count)


def one_name(size):
    """Very many capabilities of one name, and two others, of the same hash, which an implied one names very often,
    and the module and the text, too."""
    grammar = profile()
    same, one, other = (chosen(number) for number in range(3))
    found = kind(grammar, "Capability")["enumerants"]
    found += [{"enumerant": same, "value": FREE + 2 + at} for at in range(size // 4 // 78)]
    found += [{"enumerant": one, "value": FREE}, {"enumerant": other, "value": FREE + 1}]
    enumerant(grammar, "Capability", "Addresses")["capabilities"] = [one, other] * (size // 4 // 72)
    count = size // 2 // 108
    lines = [f"OpCapability {one}\n", f"OpCapability {other}\n"] * count
    return Hostile(grammar, body(nops(0), [FREE, FREE + 1] * count), "".join(lines))


def optional(size):
    """An instruction of very many optional operands, which comes without any of them, very often."""
    grammar = profile()
    entry(grammar, NOP)["operands"] = [{"kind": "IdRef", "quantifier": "?"}] * (size // 2 // 38)
    count = size // 2 // 10
    return Hostile(grammar, body(nops(count)), "OpNop\n" * count)


def optional_parameters(size):
    """The same with a value before the optional operands."""
    grammar = profile()
    rest = [{"kind": "LiteralInteger", "quantifier": "?"}] * (size // 2 // 47)
    entry(grammar, CAPABILITY)["operands"] = [{"kind": "Capability"}, *rest]
    count = size // 2 // 28
    return Hostile(grammar, body(nops(0), [6] * count), "OpCapability Kernel\n" * count)


def long_names(size):
    """Names of an instruction, a value and a bit that are long and not plain, and of an instruction that an earlier one
    bears; and very many instructions that show them, by their numbers."""
    grammar = profile()
    long = "n" * (size // 2 // 5)
    entry(grammar, NOP)["opname"] = f"{long} "
    kind(grammar, "Capability")["enumerants"].append({"enumerant": f"{long}\"", "value": FREE})
    bits = kind(grammar, "MemoryAccess")["enumerants"]
    bits.append({"enumerant": f"{long}-", "value": "0x0008"})
    grammar["instructions"].insert(0, {"opname": long, "opcode": FREE})
    entry(grammar, BRANCH)["opname"] = long
    count = size // 2 // 40

    def put(module):
        variable = module.fresh()
        module.put(op.VARIABLE, POINTER, variable, 7)
        nops(count)(module)
        for _ in range(count):
            module.put(STORE, variable, ONE, 8)
        for _ in range(count):
            after = module.fresh()
            module.put(BRANCH, after)
            module.put(op.LABEL, after)

    return Hostile(grammar, body(put, [FREE] * count))


def chosen_kinds(size):
    """Kinds whose names all have one hash, each named by an operand."""
    grammar = profile()
    count = size // 110
    names = [chosen(number) for number in range(count)]
    grammar["operand_kinds"] += [{"kind": name, "category": "Id"} for name in names]
    operands = [{"kind": name} for name in names]
    grammar["instructions"].append({"opname": "OpChosen", "opcode": FREE, "operands": operands})
    return Hostile(grammar, body(nops(0)))


def chosen_enumerants(size):
    """Capabilities whose names all have one hash, each named by the module, the text and another one."""
    grammar = profile()
    count = size // 200
    found = kind(grammar, "Capability")["enumerants"]
    for at in range(count):
        name, other = chosen(at), chosen((at * 7 + 1) % count)
        found.append({"enumerant": name, "value": FREE + at, "capabilities": [other]})
    lines = [f"OpCapability {chosen(at)}\n" for at in range(count)]
    return Hostile(grammar, body(nops(0), range(FREE, FREE + count)), "".join(lines))


def chosen_instructions(size):
    """Instructions whose names all have one hash, each of which comes. The module is refused: P1, at the first of
    them."""
    grammar = profile()
    count = min(size // 110, 65_535 - FREE)
    grammar["instructions"] += [{"opname": chosen(at), "opcode": FREE + at} for at in range(count)]

    def put(module):
        for at in range(count):
            module.put(FREE + at)

    return Hostile(grammar, body(put), "".join(f"{chosen(at)}\n" for at in range(count)))


def many_kinds(size):
    """Very many kinds, instructions and enumerants, for the smallest of modules, which is checked very often."""
    grammar = profile()
    count = size // 2 // 150
    grammar["operand_kinds"] += [{"kind": f"Kind{at}", "category": "Id"} for at in range(count)]
    grammar["instructions"] += [
        {"opname": f"Op{at}", "opcode": FREE + at % (65_536 - FREE)} for at in range(count)
    ]
    found = kind(grammar, "Capability")["enumerants"]
    found += [{"enumerant": f"Value{at}", "value": FREE + at} for at in range(count)]
    module = body(nops(0))
    return Hostile(grammar, module, times=max(1, size // 2 // (4 * len(module.words))))


def long_lists(size):
    """An instruction, a value and a bit that each need one of very many capabilities, of which the module has the
    last."""
    grammar = profile()
    names = [f"C{at}" for at in range(size // 2 // 3 // 60)]
    found = kind(grammar, "Capability")["enumerants"]
    found += [{"enumerant": name, "value": FREE + at} for at, name in enumerate(names)]
    listed = [*names, "Kernel"]
    entry(grammar, NOP)["capabilities"] = listed
    enumerant(grammar, "StorageClass", "Function")["capabilities"] = listed
    enumerant(grammar, "MemoryAccess", "Volatile")["capabilities"] = listed
    count = size // 2 // 35

    def put(module):
        variables = [module.fresh() for _ in range(count)]
        for variable in variables:
            module.put(op.VARIABLE, POINTER, variable, 7)
        nops(count)(module)
        for variable in variables:
            module.put(STORE, variable, ONE, 1)

    return Hostile(grammar, body(put))


def implied(size):
    """A capability that implies very many others, each of which implies the one before, for the smallest of modules,
    which is checked very often."""
    grammar = profile()
    count = size // 2 // 80
    found = kind(grammar, "Capability")["enumerants"]
    found += [
        {"enumerant": f"C{at}", "value": FREE + at, "capabilities": [f"C{max(0, at - 1)}"]} for at in range(count)
    ]
    enumerant(grammar, "Capability", "Addresses")["capabilities"] = [f"C{at}" for at in range(count)]
    module = body(nops(0))
    return Hostile(grammar, module, times=max(1, size // 2 // (4 * len(module.words))))


HOSTILE_GRAMMARS = {
    shape.__name__.replace("_", "-"): shape
    for shape in (
        one_name,
        optional,
        optional_parameters,
        long_names,
        chosen_kinds,
        chosen_enumerants,
        chosen_instructions,
        many_kinds,
        implied,
        long_lists,
    )
}
