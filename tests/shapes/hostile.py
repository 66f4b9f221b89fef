"""Modules whose blocks, calls, types or extended instructions are hostile to a checker, sound or with one fault."""

import random
from dataclasses import dataclass
from itertools import product
from typing import Optional

from . import opcodes as op
from .graphs import immediate_dominators, random_targets
from .module import (
    ENTRY,
    FUNCTION_TYPE,
    GREATEST_BOUND,
    INT,
    KERNEL,
    LONGEST,
    ONE,
    TRUE,
    TWO,
    VOID,
    closed,
    kernel,
    opened,
    text_words,
)

SEED = 20_261_126
# The words of an OpLabel, an OpIAdd and an OpBranch.
LINK = 9
# How many values a section of waves has: with their labels and branches 510 instructions.
WAVES = 170
# How many, where all of them are asked for and fit one word: few rounds do not settle them.
FEW_WAVES = 60
# By how far each use is from the one before, where they are spread.
STEP = 7_919
# How many blocks stand between one way into a section of waves and the next.
BESIDE = 2


def add(module, left, right=ONE):
    """An addition; its value."""
    result = module.fresh()
    module.put(op.I_ADD, INT, result, left, right)
    return result


def begun(module, label):
    """Begins a block."""
    module.put(op.LABEL, label)


def jump(module, label):
    """Ends a block: on to another one."""
    module.put(op.BRANCH, label)


def fork(module, one, other):
    """Ends a block: on to one of two others."""
    module.put(op.BRANCH_CONDITIONAL, TRUE, one, other)


def switch(module, targets):
    """Ends a block: on to one of any number of others."""
    module.put(op.SWITCH, ONE, targets[0], *(word for case in enumerate(targets[1:]) for word in case))


def crossing(module, value_beside=False):
    """Four blocks, two of which lead to each other and are each come to from outside, so that one pass in reverse
    postorder does not find what dominates them. Begins the block after them. The value of the entry block, or of the
    block beside the way."""
    beside, under, over, after = (module.fresh() for _ in range(4))
    value = add(module, ONE)
    fork(module, beside, over)
    begun(module, beside)
    aside = add(module, value)
    jump(module, under)
    begun(module, under)
    jump(module, over)
    begun(module, over)
    fork(module, under, after)
    begun(module, after)
    return aside if value_beside else value


def links(module, value, least_room):
    """A chain of blocks, each of which uses the value of the one before; the last one's value."""
    while module.room() > least_room + LINK:
        label = module.fresh()
        value = add(module, value)
        jump(module, label)
        begun(module, label)
    return value


def reducible_chain(module):
    """A chain of blocks, each of which uses the value of the one before."""
    opened(module)
    kernel(module)
    links(module, add(module, ONE), LINK)
    closed(module)


def irreducible_chain(module):
    """The same behind two blocks that lead to each other and are each come to from outside."""
    opened(module)
    kernel(module)
    links(module, crossing(module), LINK)
    closed(module)


def irreducible_fault(module):
    """A1: the same, and the last block uses the value of a block beside the way."""
    opened(module)
    kernel(module)
    aside = crossing(module, value_beside=True)
    links(module, add(module, ONE), LINK)
    add(module, aside)
    closed(module)


def put_section(module, head, after, count=WAVES):
    """A chain of blocks that each have a value, and in front of it one that begins a way beside it, which comes in
    behind each of them in turn, later than the chain does: so the values are lost one by one. The values of the
    chain, and what puts the way beside it."""
    chain = [module.fresh() for _ in range(count)]
    ways = [[module.fresh() for _ in range(BESIDE)] for _ in range(count - 2)]
    begun(module, head)
    value = add(module, ONE)
    fork(module, chain[0], ways[0][0])
    values = []
    for at, label in enumerate(chain):
        begun(module, label)
        values.append(add(module, value))
        jump(module, chain[at + 1] if at + 1 < count else after)

    def put_ways():
        for at, way in enumerate(ways):
            for label, following in zip(way, way[1:]):
                begun(module, label)
                jump(module, following)
            begun(module, way[-1])
            if at + 1 < len(ways):
                fork(module, chain[at + 1], ways[at + 1][0])
            else:
                jump(module, chain[at + 1])

    return values, put_ways


# The words of a section of waves.
SECTION = 11 + LINK * WAVES + (4 * BESIDE + 2) * (WAVES - 2)


def waves(module, sections, value_at_end=None):
    """So many sections of waves behind an entry block that is begun, and then a long tail of blocks."""
    heads = [module.fresh() for _ in range(sections + 1)]
    jump(module, heads[0])
    found = [put_section(module, head, after) for head, after in zip(heads, heads[1:])]
    label = heads[-1]
    begun(module, label)
    while module.room() > sections * (SECTION - 11 - LINK * WAVES) + LINK:
        label = module.fresh()
        jump(module, label)
        begun(module, label)
    if value_at_end is not None:
        add(module, found[value_at_end][0][0])
    closed_block(module)
    for _, put_ways in found:
        put_ways()
    module.put(op.FUNCTION_END)


def closed_block(module):
    """Ends a block and with it the walk."""
    module.put(op.RETURN)


def irreducible_waves(module):
    """Sections of waves, and a tail as long as these, behind two blocks that lead to each other."""
    opened(module)
    kernel(module)
    crossing(module)
    waves(module, max(1, module.room() // 2 // SECTION))


def waves_fault(module):
    """A1: one section of waves and a long tail, whose last block uses the value that is lost first."""
    opened(module)
    kernel(module)
    waves(module, 1, value_at_end=0)


def few_waves_fault(module):
    """A1: one section of waves of few values and a long tail, whose last block uses all values but the last, each of
    which is lost in a round of its own."""
    opened(module)
    kernel(module)
    head, label = module.fresh(), module.fresh()
    jump(module, head)
    values, put_ways = put_section(module, head, label, FEW_WAVES)
    begun(module, label)
    while module.room() > (4 * BESIDE + 2) * FEW_WAVES + LINK * FEW_WAVES:
        label = module.fresh()
        jump(module, label)
        begun(module, label)
    for value in values[:-1]:
        add(module, value)
    closed_block(module)
    put_ways()
    module.put(op.FUNCTION_END)


def irreducible_waves_fault(module):
    """A1: sections of waves behind two blocks that lead to each other, and the tail's last block uses a value that is
    lost."""
    opened(module)
    kernel(module)
    crossing(module)
    waves(module, max(1, module.room() // 2 // SECTION), value_at_end=0)


def irreducible_loops(module):
    """Loops, one within the other, that are each entered at two places."""
    opened(module)
    kernel(module)
    heads, ins, outs, values = [], [], [], []
    value = ONE
    # A loop has 15 words of its head, 9 of where it is entered and 11 of its end.
    for _ in range(max(1, (module.room() - 64) // 35)):
        heads.append(module.fresh())
        ins.append(module.fresh())
        outs.append(module.fresh())
    jump(module, heads[0])
    for at, (head, inside, out) in enumerate(zip(heads, ins, outs)):
        begun(module, head)
        values.append(add(module, value))
        fork(module, inside, out)
        begun(module, inside)
        value = add(module, values[-1])
        jump(module, heads[at + 1] if at + 1 < len(heads) else out)
    last = module.fresh()
    for at in range(len(outs) - 1, -1, -1):
        begun(module, outs[at])
        add(module, values[at])
        fork(module, ins[at], outs[at - 1] if at else last)
    begun(module, last)
    add(module, values[0])
    closed(module)


def switched_loops(module):
    """Loops of many blocks, one after another, and a switch before each that leads to all of its blocks."""
    opened(module)
    kernel(module)
    count = max(2, min(16_000, (module.room() - 64) // (LINK + 2) // 2))
    value = add(module, ONE)
    while module.room() > count * (LINK + 2) + 2 * LINK:
        labels = [module.fresh() for _ in range(count)]
        after = module.fresh()
        switch(module, labels)
        for label, following in zip(labels, labels[1:]):
            begun(module, label)
            add(module, value)
            jump(module, following)
        begun(module, labels[-1])
        fork(module, labels[0], after)
        begun(module, after)
        value = add(module, value)
    closed(module)


def climb(module):
    """A long chain of blocks, and at its end a switch to very many others, to which the entry block leads, too: each
    has the entry block right above it, but a search in depth comes to it from the end of the chain."""
    opened(module)
    kernel(module)
    value = add(module, ONE)
    count = max(2, min(30_000, (module.room() - 64) // 30))
    chain = module.fresh()
    leaves = [module.fresh() for _ in range(count)]
    switch(module, [chain, *leaves])
    begun(module, chain)
    last = add(module, value)
    while module.room() > count * 11 + 2 * LINK:
        label = module.fresh()
        jump(module, label)
        begun(module, label)
        last = add(module, last)
    switch(module, leaves)
    for label in leaves:
        begun(module, label)
        add(module, value)
        closed_block(module)
    module.put(op.FUNCTION_END)


def far_back(module):
    """Two long chains, one of which a search in depth comes to first, and the blocks of the other lead into it from
    behind: each way up from where one comes from is as long as the chain."""
    opened(module)
    kernel(module)
    count = max(2, (module.room() - 64) // 20)
    first = [module.fresh() for _ in range(count)]
    other = [module.fresh() for _ in range(count)]
    value = add(module, ONE)
    fork(module, first[0], other[0])
    for at, label in enumerate(first):
        begun(module, label)
        add(module, value)
        jump(module, first[at + 1]) if at + 1 < count else closed_block(module)
    for at, label in enumerate(other):
        begun(module, label)
        value = add(module, value)
        if at + 1 < count:
            fork(module, other[at + 1], first[count - 1 - at])
        else:
            jump(module, first[0])
    module.put(op.FUNCTION_END)


def far_uses(module):
    """A chain of blocks, each of which leads back to the second one, too, and uses a value of a block that is far
    above it: ways up through as deep a tree as there can be."""
    opened(module)
    kernel(module)
    values = [add(module, ONE)]
    second = module.fresh()
    jump(module, second)
    begun(module, second)
    while module.room() > 2 * LINK:
        label = module.fresh()
        values.append(add(module, values[len(values) * STEP % 1_000_003 % len(values)]))
        fork(module, label, second)
        begun(module, label)
    closed(module)


def little_functions(module):
    """Very many functions of two blocks, the second of which uses a value of the first."""
    opened(module)
    kernel(module)
    closed(module)
    while module.room() > 30:
        module.put(op.FUNCTION, VOID, module.fresh(), 0, FUNCTION_TYPE)
        begun(module, module.fresh())
        value, label = add(module, ONE), module.fresh()
        jump(module, label)
        begun(module, label)
        add(module, value)
        closed(module)


def entry_calls(module):
    """As many entry points of one function as calls in it, and a function that nobody calls but itself."""
    count = (module.room() - 64) // 8

    def put_entries(module):
        for _ in range(count - 1):
            module.put(op.ENTRY_POINT, 6, KERNEL, *text_words("k"))

    opened(module, put_entries)
    itself, called = module.fresh(), module.fresh()
    for function, callee in ((itself, itself), (called, None)):
        module.put(op.FUNCTION, VOID, function, 0, FUNCTION_TYPE)
        begun(module, module.fresh())
        if callee is not None:
            module.put(op.FUNCTION_CALL, VOID, module.fresh(), callee)
        closed(module)
    kernel(module)
    for _ in range(count):
        module.put(op.FUNCTION_CALL, VOID, module.fresh(), called)
    closed(module)


# Of the last four parameters of a function type by how much each may change, so that the fingerprint of the type
# stays the same (spv_type_rules): they are a reduced basis of the lattice of such changes.
CHANGES = ((28, 79, 100, -7), (-54, 172, -69, -27), (183, 9, -77, 233), (345, 10, -65, -474))


def tuples(most):
    """Changes of the last four parameters, all different, with factors of at most so much."""
    factors = range(-most, most + 1)
    for by in product(factors, repeat=len(CHANGES)):
        yield tuple(sum(factor * change[at] for factor, change in zip(by, CHANGES)) for at in range(len(CHANGES)))


def chosen_types(module):
    """Function types that differ in their last four parameters alone, and all have one fingerprint."""
    opened(module)
    length, factor = 1_000, 4
    if module.room() < 200_000:
        length, factor = 100, 1
    above = factor * max(sum(abs(change[at]) for change in CHANGES) for at in range(len(CHANGES)))
    arrays = [module.fresh() for _ in range(2 * above + 1)]
    for array in arrays:
        module.put(op.TYPE_ARRAY, array, INT, ONE)
    for changes in tuples(factor):
        if module.room() < length + 8:
            break
        arguments = [*[INT] * (length - 4), *(arrays[above + it] for it in changes)]
        module.put(op.TYPE_FUNCTION, module.fresh(), VOID, *arguments)
    kernel(module)
    closed(module)


@dataclass(frozen=True)
class Fault:
    """A use of a value that a walk to it misses."""

    block: int
    # Whose value it is.
    other: int
    # The parent that a phi pairs with the value; None where an addition uses it.
    parent: Optional[int]

    @property
    def goal(self):
        """The block at whose beginning or, of a parent, at whose end the value is missing."""
        return self.block if self.parent is None else self.parent


class Random:
    """A function of random blocks. Each defines a value, and uses values of blocks that dominate it, but for one use
    where a fault is asked for: of a value that a walk to it misses."""

    def __init__(self, module, chance, count, has_fault):
        self.module, self.chance = module, chance
        self.targets = random_targets(chance, count)
        self.dominators = immediate_dominators(self.targets)
        self.labels = [ENTRY, *(module.fresh() for _ in range(count - 1))]
        self.values = [module.fresh() for _ in range(count)]
        self.parents = [[] for _ in range(count)]
        for block, targets in enumerate(self.targets):
            for target in dict.fromkeys(targets):
                self.parents[target].append(block)
        self.fault = self.some_fault() if has_fault else None

    def dominates(self, above, block):
        """Whether a block is another or above it in the tree."""
        while block is not None and block != above:
            block = self.dominators[block]
        return block == above

    def some_fault(self):
        """A fault; None if none is found."""
        blocks = [block for block in self.dominators if block]
        for _ in range(100 if blocks else 0):
            block = self.chance.choice(blocks)
            parents = [it for it in self.parents[block] if it in self.dominators]
            parent = self.chance.choice(parents) if self.chance.random() < 0.4 else None
            fault = Fault(block, self.chance.randrange(len(self.targets)), parent)
            if not self.dominates(fault.other, fault.goal):
                return fault
        return None

    def above(self, block):
        """A value of a block that dominates this one, often of one that is near; any value where no walk comes."""
        if block not in self.dominators:
            return self.chance.choice(self.values)
        at = self.dominators[block]
        while at is not None and self.chance.random() < 0.6 and self.dominators[at] is not None:
            at = self.dominators[at]
        return ONE if at is None else self.values[at]

    def put_phi(self, block, fault):
        """A phi with the value of each parent, or of one above it."""
        pairs = []
        for parent in self.parents[block]:
            of = self.values[parent] if self.chance.random() < 0.5 else self.above(parent)
            has_fault = fault is not None and fault.parent == parent
            pairs += [self.values[fault.other] if has_fault else of, self.labels[parent]]
        self.module.put(op.PHI, INT, self.module.fresh(), *pairs)

    def put_end(self, block):
        """A terminator with the block's targets."""
        labels = [self.labels[target] for target in self.targets[block]]
        if not labels:
            closed_block(self.module)
        elif len(labels) == 1:
            jump(self.module, *labels)
        elif len(labels) == 2 and labels[0] != labels[1]:
            fork(self.module, *labels)
        else:
            switch(self.module, labels)

    def put_block(self, block):
        """A block."""
        fault = self.fault if self.fault is not None and self.fault.block == block else None
        begun(self.module, self.labels[block])
        has_phi = block and 0 < len(self.parents[block]) < 9 and self.chance.random() < 0.3
        if has_phi or (fault is not None and fault.parent is not None):
            self.put_phi(block, fault)
        is_missing = fault is not None and fault.parent is None
        right = self.values[fault.other] if is_missing else self.above(block)
        self.module.put(op.I_ADD, INT, self.values[block], self.above(block), right)
        self.put_end(block)

    def put(self):
        """The whole function, its blocks but the first in any order."""
        order = list(range(1, len(self.labels)))
        if self.chance.random() < 0.5:
            self.chance.shuffle(order)
        self.module.put(op.FUNCTION, VOID, KERNEL, 0, FUNCTION_TYPE)
        for block in (0, *order):
            self.put_block(block)
        self.module.put(op.FUNCTION_END)


# The words of a random block, so many on an average.
RANDOM_BLOCK = 15


def random_function(module, chance, count, has_fault=False):
    """A kernel of so many random blocks; the graph of it, with what it asks for."""
    opened(module)
    made = Random(module, chance, count, has_fault)
    made.put()
    return made


def random_blocks(module):
    """Random blocks, 100,000 at most: loops with several entries within loops, switches into them, phis."""
    random_function(module, random.Random(SEED), min(100_000, module.most // RANDOM_BLOCK))


def random_fault(module):
    """A1 or A2: random blocks, one of which uses a value that a walk to it misses."""
    random_function(module, random.Random(SEED), min(100_000, module.most // RANDOM_BLOCK), has_fault=True)


def printfs(module):
    """Calls of printf of as many values as an instruction holds."""
    std = module.fresh()
    opened(module, sets=[(std, "OpenCL.std")])
    kernel(module)
    while module.room() > 64:
        count = min(LONGEST - 5, module.room() - 32)
        module.put(op.EXT_INST, INT, module.fresh(), std, 184, *[ONE] * count)
    closed(module)


def many_sets(module):
    """Very many sets that are imported, and an extended instruction of each."""
    most = module.room() // 11
    own = [(module.fresh(), ("OpenCL.std", "DebugInfo", "x")[at % 3]) for at in range(most)]
    opened(module, sets=own)
    kernel(module)
    for of, name in own:
        module.put(op.EXT_INST, INT, module.fresh(), of, 61 if name == "OpenCL.std" else 23, ONE)
    closed(module)


def scattered_labels(module):
    """Blocks of one instruction, four words each, whose labels are ids at random."""
    module.scatter(random.Random(SEED))
    opened(module)
    kernel(module)
    while module.room() > 4:
        label = module.fresh()
        jump(module, label)
        begun(module, label)
    closed(module)


def scattered_chain(module):
    """A chain of blocks, each of which uses the value of the one before, with ids at random."""
    module.scatter(random.Random(SEED))
    reducible_chain(module)


def scattered_diamonds(module):
    """Diamonds with a phi at the end of each, of values of both sides, with ids at random."""
    module.scatter(random.Random(SEED))
    opened(module)
    kernel(module)
    value = add(module, ONE)
    while module.room() > 64:
        one, other, end, joined = (module.fresh() for _ in range(4))
        fork(module, one, other)
        begun(module, one)
        left = add(module, value)
        jump(module, end)
        begun(module, other)
        right = add(module, value)
        jump(module, end)
        begun(module, end)
        module.put(op.PHI, INT, joined, left, one, right, other)
        value = joined
    closed(module)


def scattered_waves(module):
    """Sections of waves behind two blocks that lead to each other, with ids at random."""
    module.scatter(random.Random(SEED))
    irreducible_waves(module)


def scattered_waves_fault(module):
    """A1: one section of waves and a long tail, whose last block uses the value that is lost first, with ids at
    random."""
    module.scatter(random.Random(SEED))
    waves_fault(module)


def scattered_few_waves_fault(module):
    """A1: the same of few values, all but the last of which the last block uses, with ids at random."""
    module.scatter(random.Random(SEED))
    few_waves_fault(module)


# How many ids lie side by side, and then how far the next ones are, where rows of ids far apart are to be full.
CLUSTER, APART = 64, 4_096


def clustered_labels(module):
    """Blocks of one instruction whose labels lie side by side, as many as a row of ids has, and then far apart."""
    opened(module)
    kernel(module)
    chance, count = random.Random(SEED), module.room() // 4
    begins = range(APART, GREATEST_BOUND - CLUSTER, min(APART, GREATEST_BOUND * CLUSTER // (count + 1)))
    ids = [begin + at for begin in begins for at in range(CLUSTER)][:count]
    chance.shuffle(ids)
    for label in ids:
        if module.room() <= 4:
            break
        jump(module, label)
        begun(module, label)
    closed(module)
    module.next = GREATEST_BOUND


HOSTILE = {
    shape.__name__.replace("_", "-"): shape
    for shape in (
        reducible_chain,
        irreducible_chain,
        irreducible_fault,
        irreducible_waves,
        irreducible_waves_fault,
        waves_fault,
        few_waves_fault,
        irreducible_loops,
        switched_loops,
        climb,
        far_back,
        far_uses,
        little_functions,
        entry_calls,
        chosen_types,
        random_blocks,
        random_fault,
        printfs,
        many_sets,
        scattered_labels,
        scattered_chain,
        scattered_diamonds,
        scattered_waves,
        scattered_waves_fault,
        scattered_few_waves_fault,
        clustered_labels,
    )
}
