"""Large modules that each break one rule, far from what breaks it: what `explain` writes of them, and what time and
memory it takes beside `check`.

The modules are those of tests/shapes/faults.py, and two of hostile.py, and what must be written is worked out from how
they are made.
"""

from shapes.faults import FAULTS as SHAPES
from shapes.faults import OPTIONS
from shapes.hostile import BESIDE, HOSTILE, WAVES
from shapes.module import ENTRY, FIRST_FREE, INT, KERNEL, Module

from .common import TESTS, Check, measured

PROFILE = TESTS / "profile.json"
LAYERS = frozenset({"layout", "ids", "types", "operations", "flow", "calls"})
# At most so many times the seconds of `check`, and so many beside; and so of its memory, in KiB.
TIMES, SECONDS_BESIDE = 3, 0.1
SPACES, SPACE_BESIDE = 2, 8 << 10
# The bytes of a module: 300,000 blocks in a chain, and as many functions in a cycle, take more than others.
SIZE = 4 << 20
SIZES = {"missing": 5 << 20, "cycle": 16 << 20}

FIRST = FIRST_FREE
LABEL, ADD, RETURN = 248, 128, 253
# How many instructions stand before the kernel's function, and before the first of its entry block.
DECLARATIONS, HEAD = 12, 14
OF_VOID, OF_INT, OF_BOOL = "%1 = OpTypeVoid", "%5 = OpTypeInt 32 0", "%9 = OpTypeBool"


def ids(values):
    """Ids, as a line has them."""
    return " ".join(f"%{value}" for value in values)


class Insts:
    """The instructions of a module, by number, from its end where the number is negative."""

    def __init__(self, module):
        self.words, self.places = module.words, []
        at = 5
        while at < len(self.words):
            self.places.append(at)
            at += max(self.words[at] >> 16, 1)

    def operands(self, number):
        """The words of an instruction but the first."""
        at = self.places[number]
        return self.words[at + 1 : at + (self.words[at] >> 16)]

    def first(self, opcode):
        """The number of the first instruction of an opcode."""
        return next(number for number, at in enumerate(self.places) if self.words[at] & 0xFFFF == opcode)

    def of_result(self, result):
        """The number of the OpLabel or OpIAdd whose result an id is."""
        for number, at in enumerate(self.places):
            opcode = self.words[at] & 0xFFFF
            if opcode in (LABEL, ADD) and self.words[at + (1 if opcode == LABEL else 2)] == result:
                return number
        return None


def missing(insts):
    walk = [ENTRY, FIRST + 1, *range(FIRST + 3, insts.operands(-3)[1])]
    of = FIRST + 2
    return [f"operand: 3 %{of}", f"defined: inst {HEAD + 2}, %{of} = OpIAdd %5 %6 %6", f"walk: {ids(walk)}"]


def crossed(insts):
    *_, of, parent = insts.operands(-3)
    count = len(insts.operands(-3)) // 2 - 1
    return [
        f"operand: {2 * count} %{of}",
        f"defined: inst {HEAD + 2}, %{of} = OpIAdd %5 %6 %6",
        f"walk: {ids([ENTRY, parent, FIRST + 2 * count])}",
    ]


def too_few(struct, parts):
    """What is said of one constituent too few."""
    made = f"%{struct} = OpTypeStruct {ids(parts)}"
    condition = "condition: there are as many constituents as the type has parts"
    of = f"{made}, of operand 0 %{struct}"
    return [condition, f"operand: 0 %{struct}", f"type: {of}", f"found: {of}"]


def unequal(insts):
    return too_few(FIRST, [INT] * (len(insts.operands(-3)) - 1))


def nested(insts):
    return too_few(FIRST + 1, [FIRST] * (len(insts.operands(-3)) - 1))


def unled(insts):
    last, zero = len(insts.operands(-3)) - 1, insts.operands(-3)[-1]
    return [
        "condition: at a struct the index is an OpConstant, the number of a member; else the type before it has parts",
        f"operand: {last} %{zero}",
        f"found: %5 = OpTypeInt 32 0, of operand {last} %{zero}",
    ]


def cycle(insts):
    functions = [*range(FIRST + 3, insts.operands(-3)[1], 3), FIRST]
    return [f"calls: {ids([KERNEL, *functions])}", f"cycle: {ids([FIRST, *functions])}"]


def pairs(insts):
    parents = insts.operands(-3)[3::2]
    return [f"twice: %{parents[-1]}", f"predecessors: {ids([*parents[:-1], parents[-1] + 1])}"]


def alike(insts):
    result, *operands = insts.operands(-5)
    count = (result - FIRST) // 2
    return [f"earlier: inst {DECLARATIONS + count}, %{FIRST + count} = OpTypeFunction {ids(operands)}"]


def astray(_):
    return ["operand: 32001 %5", f"defined: inst 6, {OF_INT}"]


def lacking(_):
    return ["needs one of: Vector16"]


def parts(insts):
    return [f"operand: {len(insts.operands(-5)) - 1} %10"]


def arguments(insts):
    return [f"argument: {len(insts.operands(-3)) - 4}", f"wanted: {OF_INT}", f"found: {OF_BOOL}"]


def parameters(insts):
    return [f"parameter: {len(insts.operands(DECLARATIONS)) - 3}", f"wanted: {OF_INT}", f"found: {OF_BOOL}"]


def handed(_):
    return ["place: return type", f"wanted: {OF_VOID}", f"found: {OF_INT}"]


def unknown(_):
    return [f"operand: 3 %{FIRST}"]


def forward(insts):
    later = len(insts.places) - 5
    return [f"operand: {len(insts.operands(-6)) - 1} %{FIRST}", f"defined: inst {later}, %{FIRST} = OpTypeArray %5 %6"]


def abroad(_):
    of = FIRST + 2
    return [f"operand: 3 %{of}", f"defined: inst {HEAD}, %{of} = OpIAdd %5 %6 %7", f"local to: %{FIRST}"]


def miscast(insts):
    return [f"operand: {len(insts.operands(-5)) - 1} %6", "role: type", "defined: inst 7, %6 = OpConstant %5 1"]


def called(insts):
    call = insts.operands(-3)
    return [f"called: inst {len(insts.places) - 3}, %{call[1]} = OpFunctionCall %1 %3"]


def left_over(_):
    return [f"words: ffff0000{' 00000001' * 15} .."]


def endless_text(insts):
    return [f"words: ffff0007 {insts.operands(-1)[0]:08x}{' 61616161' * 14} .."]


def unended(_):
    return []


def misplaced(_):
    return ["at: OpCapability Kernel"]


def undefined_argument(insts):
    return [f"operand: 5 %{insts.operands(-3)[-1]}"]


def late_argument(insts):
    line = "OpExtInst " + ids([INT, insts.operands(-3)[2]]) + " 157 " + ids(insts.operands(-3)[4:])
    of = insts.operands(-3)[1]
    return [f"operand: 5 %{of}", f"defined: inst {len(insts.places) - 3}, %{of} = {line}", f"walk: {ids([ENTRY])}"]


def miscall(_):
    return ["number: 157", "operands: 3", "least: 2", "most: 2"]


def mistyped(insts):
    return [f"operand: 5 %{insts.operands(-3)[5]}"]


def irreducible_fault(insts):
    of = FIRST + 5
    walk = [ENTRY, FIRST + 2, FIRST + 3, *range(FIRST + 7, insts.operands(-4)[0] + 1, 2)]
    defined = f"defined: inst {HEAD + 3}, %{of} = OpIAdd %5 %{FIRST + 4} %6"
    return [f"operand: 2 %{of}", defined, f"walk: {ids(walk)}"]


def waves_fault(insts):
    head, tail, chain = FIRST, FIRST + 1, FIRST + 2
    beside = chain + WAVES
    before = beside + BESIDE * (WAVES - 2)
    of = before + 1
    last = insts.operands(insts.first(RETURN) - 2)[0]
    section = [head, *range(beside, beside + BESIDE), *range(chain + 1, chain + WAVES)]
    walk = [ENTRY, *section, tail, *range(of + WAVES, last + 1)]
    defined = f"defined: inst {HEAD + 5}, %{of} = OpIAdd %5 %{before} %6"
    return [f"operand: 2 %{of}", defined, f"walk: {ids(walk)}"]


def lines_of(run):
    """The lines that a run wrote."""
    return run.out.decode().split("\n")[:-1]


def cut(line):
    """The beginning of a line."""
    return line[:100] + (".." if len(line) > 100 else "")


def wrong_lines(rule, wanted, verdict, lines):
    """None if the lines are the verdict and then, of those with the keys of the ones that are wanted, these alone."""
    if verdict[:1] != lines[:1] or not lines[0].startswith(f"fault {rule} "):
        return f"  {lines[:1]}, and not {verdict}"
    keys = {line.split(":")[0] for line in wanted}
    found = [line for line in lines[1:] if line.split(":")[0] in keys]
    for line, other in zip(wanted, found):
        if line != other:
            return f"  {cut(other)}, and not {cut(line)}"
    return None if len(wanted) == len(found) else f"  {len(found)} lines, and not {len(wanted)}"


def fault(name, rule, wanted):
    """The check of a module, whose first broken rule is known, and the lines that show it."""

    def check(program, folder):
        made = Module(SIZES.get(name, SIZE) // 4)
        {**SHAPES, **HOSTILE}[name](made)
        module = folder / f"{name}.spv"
        made.write(module)
        words = ("--grammar", PROFILE, *filter(None, [OPTIONS.get(name)]), module)
        plainly, explained = (measured(program, [command, *words], folder) for command in ("check", "explain"))
        wrong = wrong_lines(rule, wanted(Insts(made)), lines_of(plainly), lines_of(explained))
        if wrong is not None or (plainly.status, explained.status) != (1, 1):
            return wrong or f"  exit {explained.status}, and of check {plainly.status}"
        if explained.seconds > TIMES * plainly.seconds + SECONDS_BESIDE:
            return f"  {explained.seconds:.2f} seconds; check takes {plainly.seconds:.2f}"
        if explained.space > SPACES * plainly.space + SPACE_BESIDE:
            return f"  {explained.space} KiB; check takes {plainly.space}"
        return None

    return check


# Of each module the rule that it breaks, and what its lines must be.
FAULTS = {
    missing: "A1",
    crossed: "A2",
    unequal: "Y5",
    nested: "Y5",
    unled: "Y5",
    cycle: "G1",
    pairs: "F3",
    alike: "Y3",
    astray: "F1",
    lacking: "C2",
    parts: "Y4",
    arguments: "Y8",
    parameters: "Y6",
    handed: "Y7",
    unknown: "D3",
    forward: "D4",
    abroad: "D5",
    miscast: "Y1",
    called: "E2",
    left_over: "I5",
    endless_text: "I8",
    unended: "L2",
    misplaced: "L1",
    undefined_argument: "D3",
    late_argument: "A1",
    miscall: "Y9",
    mistyped: "Y10",
    irreducible_fault: "A1",
    waves_fault: "A1",
}


def checks():
    """Each of them."""
    found = []
    for wanted, rule in FAULTS.items():
        name = wanted.__name__.replace("_", "-")
        found.append(Check(f"explained: {name}", LAYERS, fault(name, rule, wanted)))
    return found
