"""Small modules of random blocks, phis, calls and extended instructions, whose values may be missing and whose calls
may go round."""

import struct

from reading import extended
from shapes import opcodes as op
from shapes.module import FUNCTION_TYPE, INT, KERNEL, ONE, TRUE, TWO, VOID, Module, opened

MOST_WORDS = 20_000
SETS = ("OpenCL.std", "OpenCL.DebugInfo.100", "OpenCL.other")
# Ids and literals that are seldom right.
ODD = (0, 4, 4_194_303, 4_000_000_000)


class Body:
    """A function in the making: its blocks with their targets, and the ids of the values that they define."""

    def __init__(self, module, chance, function, callees, sets, often):
        self.module, self.chance, self.function, self.callees = module, chance, function, callees
        self.sets, self.often = sets, often
        self.labels = [module.fresh() for _ in range(chance.randrange(1, 12))]
        self.targets = [self.some_targets(at) for at in range(len(self.labels))]
        self.values = [[module.fresh() for _ in range(chance.randrange(3))] for _ in self.labels]

    def some_targets(self, at):
        """The places of the targets of a block: none, one, two that differ, or any of a switch."""
        others = range(1, len(self.labels))
        if not others or self.chance.random() < 0.15:
            return []
        onwards = [min(at + 1, len(self.labels) - 1), self.chance.choice(others)]
        how = self.chance.randrange(4)
        if how == 0 or len(others) == 1:
            return onwards[:1]
        if how < 3:
            return self.chance.sample(others, 2)
        return [self.chance.choice(others) for _ in range(self.chance.randrange(1, 5))]

    def value(self):
        """A constant or, so often, a value of some block of the function."""
        made = [of for values in self.values for of in values]
        return self.chance.choice(made if made and self.chance.random() < self.often else (ONE, TWO))

    def put_phi(self, at):
        """A phi with a pair for each block that has this one as a target."""
        parents = [label for label, targets in zip(self.labels, self.targets) if at in targets]
        pairs = [word for parent in parents for word in (self.value(), parent)]
        self.module.put(op.PHI, INT, self.module.fresh(), *pairs)

    def behind(self, name, kinds):
        """A word for each operand of an extended instruction: a value of OpenCL.std, any id of another set, any
        literal; seldom something else."""
        for at in range(len(kinds)):
            if self.chance.random() < 0.01 or not extended.is_id(kinds, at):
                yield self.chance.choice((*ODD, *self.labels, self.module.next))
            elif name == extended.OPENCL:
                yield self.value()
            else:
                yield self.chance.choice((INT, self.function, *self.labels))

    def put_extended(self):
        """An extended instruction, most often one of its set with as many operands as it takes."""
        own, name = self.chance.choice(self.sets)
        known = extended.sets().get(name, {})
        number = self.chance.choice(sorted(known) or ODD)
        kinds = list(known.get(number, ["IdRef"] * self.chance.randrange(3)))
        if self.chance.random() < 0.05:
            number, kinds = self.chance.choice((number, 111)), kinds[1:] or ["IdRef"]
        self.module.put(extended.EXTENDED, INT, self.module.fresh(), own, number, *self.behind(name, kinds))

    def put_end(self, at):
        """A terminator with the block's targets."""
        labels = [self.labels[target] for target in self.targets[at]]
        if not labels:
            self.module.put(op.RETURN)
        elif len(labels) == 1:
            self.module.put(op.BRANCH, *labels)
        elif len(labels) == 2 and labels[0] != labels[1]:
            self.module.put(op.BRANCH_CONDITIONAL, TRUE, *labels)
        else:
            cases = [word for number, label in enumerate(labels[1:]) for word in (number, label)]
            self.module.put(op.SWITCH, ONE, labels[0], *cases)

    def put(self):
        """The whole function."""
        self.module.put(op.FUNCTION, VOID, self.function, 0, FUNCTION_TYPE)
        for at, label in enumerate(self.labels):
            self.module.put(op.LABEL, label)
            if at and self.chance.random() < 0.5:
                self.put_phi(at)
            for value in self.values[at]:
                self.module.put(op.I_ADD, INT, value, self.value(), self.value())
            if self.sets and self.chance.random() < 0.5:
                self.put_extended()
            if self.callees and self.chance.random() < 0.2:
                self.module.put(op.FUNCTION_CALL, VOID, self.module.fresh(), self.chance.choice(self.callees))
            self.put_end(at)
        self.module.put(op.FUNCTION_END)


def tangle(chance):
    """The bytes of such a module."""
    module = Module(MOST_WORDS)
    sets = [(module.fresh(), name) for name in chance.choices(SETS, k=chance.randrange(4))]
    opened(module, sets=sets)
    callees = [module.fresh() for _ in range(chance.randrange(8))]
    functions = [KERNEL, *callees]
    chance.shuffle(functions)
    often = chance.choice((0.0, 0.01, 0.1, 0.3))
    for function in functions:
        Body(module, chance, function, callees, sets, often).put()
    module.words[3] = module.next
    return struct.pack(f"<{len(module.words)}I", *module.words)
