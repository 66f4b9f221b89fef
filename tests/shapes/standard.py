"""Modules that are hostile to what `--opencl` asks besides, the rules O: sound or with one fault."""

from math import isqrt

from . import opcodes as op
from .hostile import begun, fork, jump
from .module import (
    MOST_BYTES,
    FUNCTION_TYPE,
    INT,
    KERNEL,
    ONE,
    POINTER,
    VOID,
    Module,
    closed,
    kernel,
    opened,
    text_words,
)

# The limits of OpSwitch, of OpTypeStruct, of how deep structs stand in one another, and of variables.
CASES, MEMBERS, DEPTH, LOCALS = 16_383, 16_383, 255, 524_287
CROSS_WORKGROUP, FUNCTION = 5, 7
KERNEL_MODEL = 6
VOLATILE, BUILT_IN, WORK_DIM, NO_SIGNED_WRAP = 21, 11, 30, 4469
BIT_INSTRUCTIONS, OF_BITS = 6025, "SPV_KHR_bit_instructions"
# How many ids one instruction that names many has here, how many functions a layer has, and how long names are.
NAMED, LAYER, NAME = 60_000, 64, 1_000


def function(module, own, *insts):
    """A function without parameters, of one block with these instructions."""
    module.put(op.FUNCTION, VOID, own, 0, FUNCTION_TYPE)
    begun(module, module.fresh())
    for inst in insts:
        module.put(*inst)
    closed(module)


def call(module, callee):
    """A call of a function."""
    return op.FUNCTION_CALL, VOID, module.fresh(), callee


def load(module, variable):
    """A load of a variable of an int."""
    return op.LOAD, INT, module.fresh(), variable


def variables(module, own):
    """Variables of ints in memory of the device."""
    pointer = module.fresh()
    module.put(op.TYPE_POINTER, pointer, CROSS_WORKGROUP, INT)
    for variable in own:
        module.put(op.VARIABLE, pointer, variable, CROSS_WORKGROUP)


def entry(module, own, name, interface=()):
    """An entry point."""
    module.put(op.ENTRY_POINT, KERNEL_MODEL, own, *text_words(name), *interface)


def fresh(module, count):
    """Some ids."""
    return [module.fresh() for _ in range(count)]


def joined(module, has_fault):
    """Blocks in the worst order: each stands before the two ways that lead to it. With a fault, one stands before the
    block that dominates it."""
    opened(module)
    kernel(module)
    count = module.room() // 14 - 2
    early, late = fresh(module, 2)
    joins, ones, others = (fresh(module, count) for _ in range(3))
    for join, one, other in zip(joins, ones, others):
        fork(module, one, other)
        begun(module, join)
    jump(module, late if has_fault else early)
    begun(module, early)
    module.put(op.RETURN)
    for one, other, join in reversed([*zip(ones, others, joins)]):
        begun(module, one)
        jump(module, join)
        begun(module, other)
        jump(module, join)
    begun(module, late)
    jump(module, early)
    module.put(op.FUNCTION_END)


def joins_before_their_ways(module):
    """O1: blocks in the worst order, each before the two ways that lead to it."""
    joined(module, False)


def joins_before_their_ways_fault(module):
    """O1: the same, and one block before what dominates it."""
    joined(module, True)


def blocks_backwards_fault(module):
    """O1: each block behind the one that it leads to."""
    opened(module)
    kernel(module)
    blocks = fresh(module, module.room() // 4)
    jump(module, blocks[-1])
    begun(module, blocks[0])
    module.put(op.RETURN)
    for before, label in zip(blocks, blocks[1:]):
        begun(module, label)
        jump(module, before)
    module.put(op.FUNCTION_END)


def in_dead_blocks(module, has_fault):
    """Blocks that nothing leads to, each of which uses the value of the one before; the last one its own."""
    opened(module)
    kernel(module)
    value = ONE
    while module.room() > 32:
        module.put(op.RETURN)
        begun(module, module.fresh())
        result = module.fresh()
        module.put(op.I_ADD, INT, result, value, ONE)
        value = result
    last = module.fresh()
    module.put(op.I_ADD, INT, last, last if has_fault else value, ONE)
    closed(module)


def dead_blocks(module):
    """O2: values in blocks that nothing leads to."""
    in_dead_blocks(module, False)


def dead_blocks_fault(module):
    """O2: the same, and at last one that is used where it is made."""
    in_dead_blocks(module, True)


def entries_named_alike(module):
    """O3: entry points of one function, whose long names differ at their ends."""

    def entries(module):
        for at in range(module.room() // (NAME // 4 + 8)):
            entry(module, KERNEL, "k" * NAME + f"{at:07}")

    opened(module, entries)
    kernel(module)
    closed(module)


def over_a_chain(module, has_fault):
    """Entry points, each of which calls a function of a long chain, whose last one uses a variable."""
    count = module.room() // 36
    own, chain, variable = fresh(module, count), fresh(module, count), module.fresh()

    def entries(module):
        for at, of in enumerate(own):
            entry(module, of, f"k{at}", [variable] * (not has_fault or at + 1 < count))

    opened(module, entries)
    variables(module, [variable])
    kernel(module)
    closed(module)
    for of, callee in zip(own, chain):
        function(module, of, call(module, callee))
    for of, callee in zip(chain, chain[1:]):
        function(module, of, call(module, callee))
    function(module, chain[-1], load(module, variable))


def entries_over_a_chain(module):
    """O4: thousands of entry points over thousands of functions."""
    over_a_chain(module, False)


def entries_over_a_chain_fault(module):
    """O4: the same, and the last interface lacks the variable."""
    over_a_chain(module, True)


def entries_over_variables(module):
    """O4: many entry points whose interfaces each have many variables, all of which one function uses."""
    count = isqrt(module.room()) - 20
    own, used, callee = fresh(module, count), fresh(module, count), module.fresh()

    def entries(module):
        for at, of in enumerate(own):
            entry(module, of, f"k{at}", used)

    opened(module, entries)
    variables(module, used)
    kernel(module)
    closed(module)
    for of in own:
        function(module, of, call(module, callee))
    function(module, callee, *(load(module, it) for it in used))


def entries_over_layers(module):
    """O4: layers of functions, each of which calls all of the next one; each of the last one uses a variable."""
    layers = [fresh(module, LAYER) for _ in range(max(2, module.room() // (4 * LAYER * (LAYER + 3)) - 1))]
    used = fresh(module, LAYER)
    own = fresh(module, LAYER)

    def entries(module):
        for at, of in enumerate(own):
            entry(module, of, f"k{at}", used)

    opened(module, entries)
    variables(module, used)
    kernel(module)
    closed(module)
    for layer, below in zip([own, *layers], layers):
        for of in layer:
            function(module, of, *(call(module, it) for it in below))
    for of, variable in zip(layers[-1], used):
        function(module, of, load(module, variable))


def entries_and_variables(module):
    """O4: many entry points over a long chain of functions, and many variables, which the last of another one uses."""
    count = module.room() // 60
    own, calling, others = (fresh(module, count) for _ in range(3))
    used = fresh(module, min(count, NAMED))
    first, shared = fresh(module, 2)

    def entries(module):
        entry(module, first, "first", used)
        for at, of in enumerate(own):
            entry(module, of, f"k{at}", [shared])

    opened(module, entries)
    variables(module, [shared, *used])
    kernel(module)
    closed(module)
    for of in own:
        function(module, of, call(module, calling[0]))
    for of, callee in zip(calling, calling[1:]):
        function(module, of, call(module, callee))
    function(module, calling[-1], load(module, shared))
    for of, callee in zip([first, *others], others):
        function(module, of, call(module, callee))
    function(module, others[-1], *(load(module, it) for it in used))


def decorated_alike(module):
    """O7, O8: one value that is decorated again and again."""
    value = module.fresh()

    def decorations(module):
        while module.room() > 128:
            module.put(op.DECORATE, value, NO_SIGNED_WRAP)

    opened(module, decorations)
    kernel(module)
    module.put(op.I_ADD, INT, value, ONE, ONE)
    closed(module)


def put_group(module, group, decoration, opcode, given):
    """Half of the words that are left are decorations of a group; the others give it, by an instruction of that opcode
    after another, each of as many words as `given` makes of those that are free for it."""
    half = module.room() // 2
    while module.room() > half:
        module.put(op.DECORATE, group, *decoration)
    module.put(op.DECORATION_GROUP, group)
    while module.room() > 256:
        module.put(opcode, group, *given(min(NAMED, module.room() - 200)))


def groups_of_many(module):
    """O7, O8: a group of very many decorations, which is given to one variable again and again."""
    group, variable = fresh(module, 2)

    def decorations(module):
        put_group(module, group, (VOLATILE,), op.GROUP_DECORATE, lambda free: [variable] * free)

    opened(module, decorations)
    variables(module, [variable])
    kernel(module)
    closed(module)


def groups_of_members(module):
    """O7, O11: a group of very many decorations, which is given to the members of a struct again and again."""
    group, struct = fresh(module, 2)

    def members(free):
        return [word for at in range(free // 2) for word in (struct, at % 2)]

    def decorations(module):
        put_group(module, group, (BUILT_IN, WORK_DIM), op.GROUP_MEMBER_DECORATE, members)

    opened(module, decorations)
    module.put(op.TYPE_STRUCT, struct, INT, INT)
    kernel(module)
    closed(module)


def members_built_in(module):
    """O11: structs of many members, all of which are built in."""
    count = max(1, module.room() // (6 * LAYER + 2))
    structs = fresh(module, count)

    def decorations(module):
        for struct in structs:
            for member in range(LAYER):
                module.put(op.MEMBER_DECORATE, struct, member, BUILT_IN, WORK_DIM)

    opened(module, decorations)
    for struct in structs:
        module.put(op.TYPE_STRUCT, struct, *[INT] * LAYER)
    kernel(module)
    closed(module)


def long_switch(module, count, last):
    """A switch of so many cases in no order, to one block; the literal of the last."""
    label, step = module.fresh(), 7_919
    cases = [(at * step) % count for at in range(count - 1)] + [last]
    module.put(op.SWITCH, ONE, label, *(word for case in cases for word in (case, label)))
    begun(module, label)


def switches(module, has_fault):
    """Switches of as many cases as there may be; the last one has two equal ones, and as many as an instruction holds.
    """
    opened(module)
    kernel(module)
    while module.room() > 3 * (2 * CASES + 8):
        long_switch(module, CASES, CASES)
    if has_fault:
        long_switch(module, 2 * CASES - 1, 1)
    closed(module)


def long_switches(module):
    """O19: switches of as many cases as there may be."""
    switches(module, False)


def long_switches_fault(module):
    """O19, before O22: the same, and one of 65,533 words with two equal cases."""
    switches(module, True)


def many_extensions(module):
    """O21: very many capabilities that are there by an extension, and very many extensions before that one."""
    quarter = module.room() // 4
    while len(module.words) < quarter:
        module.put(op.CAPABILITY, BIT_INSTRUCTIONS)
    module.put(op.CAPABILITY, 4)
    module.put(op.CAPABILITY, 6)
    at = 0
    while module.room() > 128:
        module.put(op.EXTENSION, *text_words(f"SPV_KHR_{at:07}"))
        at += 1
    module.put(op.EXTENSION, *text_words(OF_BITS))
    module.put(op.MEMORY_MODEL, 2, 2)
    entry(module, KERNEL, "k")
    module.put(op.TYPE_VOID, VOID)
    module.put(op.TYPE_FUNCTION, FUNCTION_TYPE, VOID)
    kernel(module)
    closed(module)


def nested(module, has_fault):
    """Structs as deep as there may be, and wide ones of these; at last one that is deeper."""
    opened(module)
    depth, of = 0, INT
    while module.room() > MEMBERS + 64:
        is_wide = depth == DEPTH - 1
        struct = module.fresh()
        module.put(op.TYPE_STRUCT, struct, *[of] * (MEMBERS if is_wide else 1))
        depth, of = (0, INT) if is_wide else (depth + 1, struct)
    for _ in range((DEPTH + 1 - depth) * has_fault):
        struct = module.fresh()
        module.put(op.TYPE_STRUCT, struct, of)
        of = struct
    kernel(module)
    closed(module)


def deep_structs(module):
    """O22: structs as deep as there may be."""
    nested(module, False)


def deep_structs_fault(module):
    """O22: the same, and at last one that is deeper."""
    nested(module, True)


def local_variables(count):
    """A module with so many variables in two functions together; the number of the last one, and its first word."""
    module = Module(MOST_BYTES // 4)
    opened(module)
    half = count // 2
    kernel(module)
    for _ in range(half):
        module.put(op.VARIABLE, POINTER, module.fresh(), FUNCTION)
    closed(module)
    function(module, module.fresh(), *((op.VARIABLE, POINTER, module.fresh(), FUNCTION) for _ in range(count - half)))
    return module, count + 17, len(module.words) - 6


STANDARD = {
    shape.__name__.replace("_", "-"): shape
    for shape in (
        joins_before_their_ways,
        joins_before_their_ways_fault,
        blocks_backwards_fault,
        dead_blocks,
        dead_blocks_fault,
        entries_named_alike,
        entries_over_a_chain,
        entries_over_a_chain_fault,
        entries_over_variables,
        entries_over_layers,
        entries_and_variables,
        decorated_alike,
        groups_of_many,
        groups_of_members,
        members_built_in,
        long_switches,
        long_switches_fault,
        many_extensions,
        deep_structs,
        deep_structs_fault,
    )
}
