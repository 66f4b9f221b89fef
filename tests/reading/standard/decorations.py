"""Rules on decorations and names of members: O6 to O11."""

from ..forms import INT, POINTER, STRUCT
from ..order import opcodes_in
from .module import DECORATE, LINKAGE_ATTRIBUTES, MEMBER_DECORATE, MEMBER_DECORATE_STRING, VARIABLE

MEMBER_NAME, FUNCTION, PARAMETER = 6, 54, 55
BUILT_IN, RESTRICT, ALIASED = 11, 19, 20
INPUT = 1


def has_opcode(codes):
    """Whether an id is the result of one of these opcodes."""
    opcodes = set(opcodes_in(codes))
    return lambda module, of: module.definition(of).opcode in opcodes


def is_memory(module, of):
    """An OpVariable, or a parameter of pointer type."""
    found = module.definition(of)
    return found.opcode == VARIABLE or found.opcode == PARAMETER and module.types.form(found.type) == POINTER


def is_converted(module, of):
    """The result of a conversion to ints."""
    found = module.definition(of)
    return found.opcode in (109, 110, 113, 114, 117, 124) and module.types.is_of(INT, found.type)


def is_pointer(module, of):
    """What has a pointer type as its result type."""
    return module.types.form(module.definition(of).type) == POINTER


# Table T: what decorations stand on, those that have a row. Any other may stand on anything.
STANDS_ON = (
    ("1", has_opcode("48-50")),
    ("10", has_opcode("30")),
    ("11", has_opcode("59")),
    ("19 20 21 23 24 25", is_memory),
    ("22", lambda module, of: module.is_global(of)),
    ("28", is_converted),
    ("41", lambda module, of: module.definition(of).opcode == FUNCTION or module.is_global(of)),
    ("44-47", is_pointer),
    ("4469 4470", has_opcode("128 130 132 126 196 12")),
)
FITS = {decoration: holds for codes, holds in STANDS_ON for decoration in opcodes_in(codes)}
# Its last row: those that no member has.
NEVER_ON_MEMBERS = set(opcodes_in("1 10 20 22 27 28 38-41 44-47 4469 4470 5634"))


def O6(module):
    """A name or a decoration of a member is of none."""
    for at, inst in module.all_of(MEMBER_NAME, MEMBER_DECORATE, MEMBER_DECORATE_STRING):
        of, member = inst.operands[0][1], inst.operands[1][1]
        if module.types.form(of) != STRUCT or member >= len(module.types.rest(of)):
            yield at


def O7(module):
    """A decoration stands where it may not, or an id behind one of OpDecorate."""
    for at, inst in module.all_of(DECORATE):
        if any(it[0] == "Id" for it in inst.operands[2:]):
            yield at
    for (of, decoration), at in module.decorations.items():
        if decoration in FITS and not FITS[decoration](module, of):
            yield at
    for (*_, decoration), at in module.member_decorations.items():
        if decoration in NEVER_ON_MEMBERS:
            yield at


def O8(module):
    """An id is both restricted and aliased."""
    for (of, decoration), at in module.decorations.items():
        other = module.decorations.get((of, ALIASED))
        if decoration == RESTRICT and other is not None:
            yield max(at, other)


def O9(module):
    """The function of an entry point is linked."""
    for of in module.entry_points:
        if (of, LINKAGE_ATTRIBUTES) in module.decorations:
            yield module.decorations[of, LINKAGE_ATTRIBUTES]


def O10(module):
    """A variable that gets its value from outside has an initializer."""
    for at, inst in module.all_of(VARIABLE):
        if len(inst.operands) > 3 and (inst.operands[2][2] == INPUT or inst.result in module.imported):
            yield at


def O11(module):
    """A struct has some members that are built in, or a member that has such ones."""
    built_in = {}
    for of, member, decoration in module.member_decorations:
        if decoration == BUILT_IN:
            built_in.setdefault(of, set()).add(member)
    for at, inst in module.all_of(STRUCT):
        own = built_in.get(inst.result, ())
        if own and len(own) < len(inst.operands) - 1 or any(it[1] in built_in for it in inst.operands[1:]):
            yield at
