"""Modules that each break one rule, far from what breaks it; the last three only where the operands of extended
instructions are looked at."""

from . import opcodes as op
from .module import (
    BOOL,
    FUNCTION_TYPE,
    INT,
    KERNEL,
    LONGEST,
    ONE,
    POINTER,
    TRUE,
    TWO,
    VOID,
    closed,
    kernel,
    opened,
    text_words,
)
from .sound import put_maths


def missing(module):
    """A1: a chain of blocks, at the end of which a value is used that is defined beside it."""
    opened(module)
    kernel(module)
    beside, label, value = (module.fresh() for _ in range(3))
    module.put(op.BRANCH_CONDITIONAL, TRUE, beside, label)
    module.put(op.LABEL, beside)
    module.put(op.I_ADD, INT, value, ONE, ONE)
    module.put(op.BRANCH, label)
    module.put(op.LABEL, label)
    while module.room() > 8:
        label = module.fresh()
        module.put(op.BRANCH, label)
        module.put(op.LABEL, label)
    module.put(op.I_ADD, INT, module.fresh(), ONE, value)
    closed(module)


def crossed(module):
    """A2: phis of as many pairs as blocks, and the value of the last pair is that of another parent."""
    opened(module)
    kernel(module)
    count = min(32_000, (module.room() - 64) // 14)
    parents = [module.fresh() for _ in range(count)]
    values = [module.fresh() for _ in parents]
    after = module.fresh()
    module.put(op.SWITCH, ONE, parents[0], *(w for at, it in enumerate(parents[1:]) for w in (at, it)))
    for parent, value in zip(parents, values):
        module.put(op.LABEL, parent)
        module.put(op.I_ADD, INT, value, ONE, ONE)
        module.put(op.BRANCH, after)
    module.put(op.LABEL, after)
    while module.room() > 4 * count + 6:
        module.put(op.PHI, INT, module.fresh(), *(w for pair in zip(values, parents) for w in pair))
    values[-1] = values[0]
    module.put(op.PHI, INT, module.fresh(), *(w for pair in zip(values, parents) for w in pair))
    closed(module)


def unequal(module):
    """Y5: a struct of ints, made of one int too few."""
    opened(module)
    count = min(65_000, (module.room() - 64) // 3)
    struct = module.fresh()
    module.put(op.TYPE_STRUCT, struct, *[INT] * count)
    kernel(module)
    while module.room() > 2 * count + 6:
        module.put(op.COMPOSITE_CONSTRUCT, struct, module.fresh(), *[ONE] * count)
    module.put(op.COMPOSITE_CONSTRUCT, struct, module.fresh(), *[ONE] * (count - 1))
    closed(module)


def nested(module):
    """Y5: a struct of structs, made of one struct too few: each of its parts has a type as long as itself."""
    opened(module)
    count = min(8_000, (module.room() - 64) // 3)
    inner, outer, value = (module.fresh() for _ in range(3))
    module.put(op.TYPE_STRUCT, inner, *[INT] * count)
    module.put(op.TYPE_STRUCT, outer, *[inner] * count)
    module.put(op.UNDEF, inner, value)
    kernel(module)
    module.put(op.COMPOSITE_CONSTRUCT, outer, module.fresh(), *[value] * (count - 1))
    closed(module)


def unled(module):
    """Y5: an access chain through structs within structs, with one index too many."""
    opened(module)
    depth = min(60_000, (module.room() - 64) // 5)
    types = [INT, *(module.fresh() for _ in range(depth))]
    for inner, outer in zip(types, types[1:]):
        module.put(op.TYPE_STRUCT, outer, inner)
    zero, base = module.fresh(), module.fresh()
    module.put(op.CONSTANT, INT, zero, 0)
    module.put(op.TYPE_POINTER, base, 7, types[-1])
    kernel(module)
    variable = module.fresh()
    module.put(op.VARIABLE, base, variable, 7)
    module.put(op.ACCESS_CHAIN, POINTER, module.fresh(), variable, *[zero] * (depth + 1))
    closed(module)


def cycle(module):
    """G1: functions that each call the next, and the last of them the first, which the kernel comes to last."""
    opened(module)
    first = module.next
    count = (module.room() - 64) // 13
    module.next += 3 * count
    for at in range(count):
        module.put(op.FUNCTION, VOID, first + 3 * at, 0, FUNCTION_TYPE)
        module.put(op.LABEL, first + 3 * at + 1)
        module.put(op.FUNCTION_CALL, VOID, first + 3 * at + 2, first + 3 * ((at + 1) % count))
        closed(module)
    kernel(module)
    module.put(op.FUNCTION_CALL, VOID, module.fresh(), first + 3)
    closed(module)


def pairs(module):
    """F3: phis of as many pairs as an instruction holds, and in the last one of them a parent stands twice."""
    opened(module)
    kernel(module)
    count = min(32_000, (module.room() - 64) // 8)
    parents = [module.fresh() for _ in range(count)]
    after = module.fresh()
    module.put(op.SWITCH, ONE, parents[0], *(w for at, it in enumerate(parents[1:]) for w in (at, it)))
    for parent in parents:
        module.put(op.LABEL, parent)
        module.put(op.BRANCH, after)
    module.put(op.LABEL, after)
    while module.room() > 4 * count + 6:
        module.put(op.PHI, INT, module.fresh(), *(w for it in parents for w in (ONE, it)))
    parents[-1] = parents[-2]
    module.put(op.PHI, INT, module.fresh(), *(w for it in parents for w in (ONE, it)))
    closed(module)


def alike(module):
    """Y3: function types that differ in their last parameter alone, and the last is the first once more."""
    opened(module)
    length = 1_000
    count = (module.room() - 2_000) // (length + 8)
    last = [module.fresh() for _ in range(count)]
    for array in last:
        module.put(op.TYPE_ARRAY, array, INT, ONE)
    for array in [*last, last[0]]:
        module.put(op.TYPE_FUNCTION, module.fresh(), VOID, *[INT] * (length - 1), array)
    kernel(module)
    closed(module)


def astray(module):
    """F1: switches of 16,000 targets, and the last target of the last one is no label."""
    opened(module)
    kernel(module)
    last = module.fresh()
    while module.room() > 64_010:
        after = module.fresh()
        targets = (after, last) * 8_000
        module.put(op.SWITCH, ONE, after, *(w for at, it in enumerate(targets) for w in (at, it)))
        module.put(op.LABEL, after)
    module.put(op.SWITCH, ONE, last, *(w for at in range(15_999) for w in (at, last)), 15_999, INT)
    module.put(op.LABEL, last)
    closed(module)


def lacking(module):
    """C2: opaque types, and after them a vector of 16 components without the capability Vector16."""
    opened(module)
    number = 0
    while module.room() > 8:
        module.put(op.TYPE_OPAQUE, module.fresh(), *text_words(f"{number:07}"))
        number += 1
    module.put(op.TYPE_VECTOR, module.fresh(), INT, 16)
    kernel(module)
    closed(module)


def parts(module):
    """Y4: constants of a struct of many ints, and the last part of the last one is a bool."""
    opened(module)
    count = min(65_000, (module.room() - 64) // 3)
    struct = module.fresh()
    module.put(op.TYPE_STRUCT, struct, *[INT] * count)
    while module.room() > 2 * count + 6:
        module.put(op.CONSTANT_COMPOSITE, struct, module.fresh(), *[ONE] * count)
    module.put(op.CONSTANT_COMPOSITE, struct, module.fresh(), *[ONE] * (count - 1), TRUE)
    kernel(module)
    closed(module)


def arguments(module):
    """Y8: calls of a function of many parameters, and the last argument of the last one is a bool."""
    opened(module)
    count = min(65_000, (module.room() - 64) // 6)
    signature, function = module.fresh(), module.fresh()
    module.put(op.TYPE_FUNCTION, signature, VOID, *[INT] * count)
    module.put(op.FUNCTION, VOID, function, 0, signature)
    for _ in range(count):
        module.put(op.FUNCTION_PARAMETER, INT, module.fresh())
    module.put(op.LABEL, module.fresh())
    closed(module)
    kernel(module)
    while module.room() > 2 * count + 8:
        module.put(op.FUNCTION_CALL, VOID, module.fresh(), function, *[ONE] * count)
    module.put(op.FUNCTION_CALL, VOID, module.fresh(), function, *[ONE] * (count - 1), TRUE)
    closed(module)


def parameters(module):
    """Y6: a function of many parameters, the last of which has another type than its function type says."""
    opened(module)
    count = min(65_000, (module.room() - 64) // 4)
    signature = module.fresh()
    module.put(op.TYPE_FUNCTION, signature, VOID, *[INT] * count)
    module.put(op.FUNCTION, VOID, module.fresh(), 0, signature)
    for _ in range(count - 1):
        module.put(op.FUNCTION_PARAMETER, INT, module.fresh())
    module.put(op.FUNCTION_PARAMETER, BOOL, module.fresh())
    module.put(op.LABEL, module.fresh())
    closed(module)
    kernel(module)
    closed(module)


def handed(module):
    """Y7: a function of very many blocks, in the last of which a void function hands a value back."""
    opened(module)
    kernel(module)
    while module.room() > 8:
        after = module.fresh()
        module.put(op.BRANCH, after)
        module.put(op.LABEL, after)
    module.put(op.RETURN_VALUE, ONE)
    module.put(op.FUNCTION_END)


def unknown(module):
    """D3: very many values, and in the last instruction an id that nothing defines."""
    opened(module)
    kernel(module)
    absent = module.fresh()
    while module.room() > 12:
        module.put(op.I_ADD, INT, module.fresh(), ONE, TWO)
    module.put(op.I_ADD, INT, module.fresh(), ONE, absent)
    closed(module)


def forward(module):
    """D4: structs of as many members as an instruction holds, and the last member of the last one comes later."""
    opened(module)
    later = module.fresh()
    count = min(65_000, (module.room() - 64) // 2)
    while module.room() > 2 * count + 8:
        module.put(op.TYPE_STRUCT, module.fresh(), *[INT] * count)
    module.put(op.TYPE_STRUCT, module.fresh(), *[INT] * (count - 1), later)
    module.put(op.TYPE_ARRAY, later, INT, ONE)
    kernel(module)
    closed(module)


def abroad(module):
    """D5: very many values of a function, the first of which another function uses at its end."""
    opened(module)
    first = module.next
    module.put(op.FUNCTION, VOID, module.fresh(), 0, FUNCTION_TYPE)
    module.put(op.LABEL, module.fresh())
    while module.room() > module.most // 2:
        module.put(op.I_ADD, INT, module.fresh(), ONE, TWO)
    closed(module)
    kernel(module)
    while module.room() > 12:
        module.put(op.I_ADD, INT, module.fresh(), ONE, TWO)
    module.put(op.I_ADD, INT, module.fresh(), ONE, first + 2)
    closed(module)


def miscast(module):
    """Y1: structs of as many members as an instruction holds, and the last member of the last one is a constant."""
    opened(module)
    count = min(65_000, (module.room() - 64) // 2)
    while module.room() > 2 * count + 8:
        module.put(op.TYPE_STRUCT, module.fresh(), *[INT] * count)
    module.put(op.TYPE_STRUCT, module.fresh(), *[INT] * (count - 1), ONE)
    kernel(module)
    closed(module)


def called(module):
    """E2: very many functions, the last of which calls the kernel."""
    opened(module)
    while module.room() > 32:
        module.put(op.FUNCTION, VOID, module.fresh(), 0, FUNCTION_TYPE)
        module.put(op.LABEL, module.fresh())
        closed(module)
    kernel(module)
    closed(module)
    module.put(op.FUNCTION, VOID, module.fresh(), 0, FUNCTION_TYPE)
    module.put(op.LABEL, module.fresh())
    module.put(op.FUNCTION_CALL, VOID, module.fresh(), KERNEL)
    closed(module)


def left_over(module):
    """I5: very many instructions, and at the end one of 65,535 words where one is due."""
    opened(module)
    kernel(module)
    module.words.extend([1 << 16] * (module.room() - LONGEST))
    module.put(op.NOP, *[1] * (LONGEST - 1))


def endless_text(module):
    """I8: very many instructions, and at the end a text of 262,132 octets that does not end."""
    opened(module)
    kernel(module)
    module.words.extend([1 << 16] * (module.room() - LONGEST))
    module.put(op.STRING, module.fresh(), *[0x6161_6161] * (LONGEST - 2))


def unended(module):
    """L2: very many instructions, and no end of the last block."""
    opened(module)
    kernel(module)
    module.words.extend([1 << 16] * module.room())


def misplaced(module):
    """L1: very many instructions, and a capability after them."""
    opened(module)
    kernel(module)
    module.words.extend([1 << 16] * module.room())
    module.put(op.CAPABILITY, 6)


def undefined_argument(module):
    """D3: very many extended instructions, and one of an id that nothing defines."""
    std, value = put_maths(module)
    result, unknown = module.fresh(), module.fresh()
    module.put(op.EXT_INST, INT, result, std, 157, value, unknown)
    closed(module)


def late_argument(module):
    """A1: very many extended instructions, and one of its own result."""
    std, value = put_maths(module)
    result = module.fresh()
    module.put(op.EXT_INST, INT, result, std, 157, value, result)
    closed(module)


def miscall(module):
    """Y9: very many extended instructions, and one of an operand too many."""
    std, value = put_maths(module)
    module.put(op.EXT_INST, INT, module.fresh(), std, 157, value, value, ONE)
    closed(module)


def mistyped(module):
    """Y10: very many extended instructions, and one of a bool."""
    std, value = put_maths(module)
    module.put(op.EXT_INST, INT, module.fresh(), std, 157, value, TRUE)
    closed(module)


FAULTS = {
    fault.__name__.replace("_", "-"): fault
    for fault in (
        missing,
        crossed,
        unequal,
        nested,
        unled,
        cycle,
        pairs,
        alike,
        astray,
        lacking,
        parts,
        arguments,
        parameters,
        handed,
        unknown,
        forward,
        abroad,
        miscast,
        called,
        left_over,
        endless_text,
        unended,
        misplaced,
        undefined_argument,
        late_argument,
        miscall,
        mistyped,
    )
}
# The options by which alone some of them break their rule.
OPTIONS = {**dict.fromkeys(("undefined-argument", "late-argument", "miscall"), "--extended"), "mistyped": "--opencl"}
