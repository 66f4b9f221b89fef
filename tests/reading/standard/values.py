"""Rules on types, memory, scopes and semantics: O12 to O17."""

from ..forms import FLOAT, INT, POINTER, STRUCT
from ..order import SHAPE_OF, opcodes_in, words_in

MODEL, FORWARD_POINTER, STORE, COPY, COPY_SIZED = 14, 39, 62, 63, 64
EXCHANGE, FLAG_CLEAR = 230, 319
ATOMICS = tuple(range(227, 243))
WITH_FLAGS = (*ATOMICS, 318, 319)
# The capabilities by which there are ints of 8 bits, atomics of 64 bits, and those of halves; and that of the memory
# model of Vulkan.
INTS_OF_8 = (39, 4448, 4449, 4450)
ATOMICS_OF_64 = (12,)
ATOMICS_OF_HALF = (5616, 6095)
VULKAN_MEMORY_MODEL = (5345,)
UNIFORM_CONSTANT, INPUT = 0, 1
LAST_SCOPE, WORKGROUP, SUBGROUP = 4, 2, 3
OF_GROUPS = set(opcodes_in("259-271 285-288 333-366"))
WITH_ORDERS = [code for code, shape in SHAPE_OF.items() if {"c", "m"} & set(words_in(shape))]
ACQUIRE, RELEASE, ACQUIRE_RELEASE, SEQUENTIAL = 2, 4, 8, 16
ORDERS = ACQUIRE | RELEASE | ACQUIRE_RELEASE | SEQUENTIAL
# Bits of semantics that need what no kernel has: of uniform and of output memory, and of the memory model of Vulkan.
OF_OTHERS = 64 | 4096 | 8192 | 16384 | 32768


def O12(module):
    """A forward pointer points to what is no struct."""
    for at, inst in module.all_of(FORWARD_POINTER):
        if module.types.form(module.types.pointer(inst.operands[0][1])[1]) != STRUCT:
            yield at


def O13(module):
    """Ints of 8 bits without a capability for them, or the memory model of Vulkan."""
    for at, inst in module.all_of(INT, MODEL):
        if inst.opcode == MODEL and module.is_implied(*VULKAN_MEMORY_MODEL):
            yield at
        if inst.opcode == INT and inst.operands[1][1] == 8 and not module.is_implied(*INTS_OF_8):
            yield at


def has_bits(value, bits):
    """Whether there is a value, and it has one of some bits."""
    return value is not None and value & bits != 0


def are_semantics_broken(value):
    """Whether a value of semantics has two orders, or what no kernel has."""
    return value is not None and (bin(value & ORDERS).count("1") > 1 or has_bits(value, OF_OTHERS))


def are_unequal(first, second):
    """Whether the semantics of an exchange are stronger where the values differ than where they are equal, or release
    there."""
    if has_bits(second, RELEASE | ACQUIRE_RELEASE):
        return True
    if first is None:
        return False
    return has_bits(second, SEQUENTIAL) and not first & SEQUENTIAL or has_bits(second, ACQUIRE) and not first & ORDERS


def O14(module):
    """The value of a scope or of semantics is none that there may be."""
    for at, inst in module.all_of(*WITH_ORDERS):
        words = module.with_words(inst)
        scopes = [module.value(of) for of, word in words if word == "c"]
        semantics = [module.value(of) for of, word in words if word == "m"]
        if any(it is not None and it > LAST_SCOPE for it in scopes) or any(map(are_semantics_broken, semantics)):
            yield at
        if inst.opcode in OF_GROUPS and scopes[0] not in (None, WORKGROUP, SUBGROUP):
            yield at
        if inst.opcode == EXCHANGE and are_unequal(*semantics):
            yield at
        if inst.opcode == FLAG_CLEAR and has_bits(semantics[0], ACQUIRE | ACQUIRE_RELEASE):
            yield at


def is_atomic(module, of):
    """Whether there are atomics of a type."""
    form, width = module.types.form(of), module.types.rest(of)[0]
    if form == INT:
        return width == 32 or width == 64 and module.is_implied(*ATOMICS_OF_64)
    return form != FLOAT or width != 16 or module.is_implied(*ATOMICS_OF_HALF)


def O15(module):
    """An atomic is of a type that has none."""
    for at, inst in module.all_of(*ATOMICS):
        if not is_atomic(module, module.types.pointer(module.types.type_of(module.values(inst)[0]))[1]):
            yield at


def O16(module):
    """What is written is constant or an input, or an atomic is of it."""
    for at, inst in module.all_of(STORE, COPY, COPY_SIZED, *WITH_FLAGS):
        if module.storage_class(module.values(inst)[0]) in (UNIFORM_CONSTANT, INPUT):
            yield at


def O17(module):
    """Nothing is copied."""
    for at, inst in module.all_of(COPY_SIZED):
        if module.value(module.values(inst)[2]) == 0:
            yield at
