"""Modules that are sound, and three that decode and then do not fit the profile. Each shape adds its words to a
module."""

from functools import partial

from . import opcodes as op
from .module import (
    FIRST_FREE,
    FUNCTION_TYPE,
    GREATEST_BOUND,
    INT,
    KERNEL,
    LONGEST,
    ONE,
    POINTER,
    TRUE,
    TWO,
    VOID,
    closed,
    kernel,
    opened,
    text_words,
)


def tiny(module):
    module.put(op.CAPABILITY, 4)
    module.put(op.CAPABILITY, 6)
    module.put(op.MEMORY_MODEL, 2, 2)
    module.put(op.ENTRY_POINT, 6, 3, *text_words("k"))
    module.put(op.TYPE_VOID, 1)
    module.put(op.TYPE_FUNCTION, 2, 1)
    module.put(op.FUNCTION, 1, 3, 0, 2)
    module.put(op.LABEL, 4)
    module.next = 5
    closed(module)


def straight(module):
    """One block of additions, each of the two values before it."""
    opened(module)
    kernel(module)
    before, last = ONE, TWO
    while module.room() > 5:
        result = module.fresh()
        module.put(op.I_ADD, INT, result, before, last)
        before, last = last, result
    closed(module)


# Instructions of OpenCL.std by their numbers, with as many operands: u_abs, u_max and u_clamp.
MATHS = {201: 1, 157: 2, 150: 3}


def put_maths(module):
    """Begins the kernel, and fills its block with extended instructions of OpenCL.std, each of the values before it:
    the id of the set, and the last value."""
    std, values = module.fresh(), [ONE, TWO, ONE]
    opened(module, sets=[(std, "OpenCL.std")])
    kernel(module)
    while module.room() > 24:
        for number, count in MATHS.items():
            result = module.fresh()
            module.put(op.EXT_INST, INT, result, std, number, *values[:count])
            values = [result, *values[:2]]
    return std, values[0]


def maths(module):
    """One block of extended instructions of OpenCL.std, each of the values before it."""
    put_maths(module)
    closed(module)


def nops(module):
    """One block of the shortest instructions."""
    opened(module)
    kernel(module)
    module.words.extend([1 << 16] * module.room())
    closed(module)


def constants(module):
    """Constants, for each of which the width of a type is asked."""
    opened(module)
    number = 0
    while module.room() > 4:
        module.put(op.CONSTANT, INT, module.fresh(), number)
        number += 1
    kernel(module)
    closed(module)


def texts(module):
    """Strings of 65,000 octets, of characters of one to four octets."""
    words = text_words("aß€𝄞" * 6_500)

    def strings(module):
        while module.room() > len(words) + 2:
            module.put(op.STRING, module.fresh(), *words)

    opened(module, strings)
    kernel(module)
    closed(module)


def names(module):
    """A name of one id, given to it very many times."""

    def put_names(module):
        while module.room() > 12:
            module.put(op.NAME, ONE, *text_words("value"))

    opened(module, put_names)
    kernel(module)
    closed(module)


def longer_names(module):
    """Names of 23 and 27 octets in turn, of one id."""
    texts = [text_words(text) for text in ("value_of_the_variable_7", "address_of_the_variable_777")]

    def put_names(module):
        while module.room() > 20:
            for words in texts:
                module.put(op.NAME, ONE, *words)

    opened(module, put_names)
    kernel(module)
    closed(module)


def memory(module):
    """Stores with an alignment: a mask and its parameter."""
    opened(module)
    kernel(module)
    variable = module.fresh()
    module.put(op.VARIABLE, POINTER, variable, 7)
    while module.room() > 5:
        module.put(op.STORE, variable, ONE, 2, 4)
    closed(module)


def named_stores(module, text):
    """Stores, with one name of both ids."""
    variable = module.fresh()

    def put_names(module):
        for of in (variable, ONE):
            module.put(op.NAME, of, *text_words(text))

    opened(module, put_names)
    kernel(module)
    module.put(op.VARIABLE, POINTER, variable, 7)
    while module.room() > 3:
        module.put(op.STORE, variable, ONE)
    closed(module)


def named_constants(module, text):
    """Constants of one array of 60,000 elements, with one name of both elements."""
    count = 60_000

    def put_names(module):
        for of in (ONE, TWO):
            module.put(op.NAME, of, *text_words(text))

    opened(module, put_names)
    length, array = module.fresh(), module.fresh()
    module.put(op.CONSTANT, INT, length, count)
    module.put(op.TYPE_ARRAY, array, INT, length)
    while module.room() > count + 3:
        module.put(op.CONSTANT_COMPOSITE, array, module.fresh(), *[ONE, TWO] * (count // 2))
    kernel(module)
    closed(module)


def switches(module):
    """Switches of 16,000 cases, one after another."""
    opened(module)
    kernel(module)
    last = module.fresh()
    while module.room() > 32_010:
        after = module.fresh()
        targets = (after, last) * 8_000
        cases = (word for number_and_label in enumerate(targets) for word in number_and_label)
        module.put(op.SWITCH, ONE, after, *cases)
        module.put(op.LABEL, after)
    module.put(op.BRANCH, last)
    module.put(op.LABEL, last)
    closed(module)


def selected(module):
    """Begins the kernel with a value to select by, and a jump to a first block, which is begun; its label is the
    answer, with the value."""
    opened(module)
    kernel(module)
    value, label = module.fresh(), module.fresh()
    module.put(op.I_ADD, INT, value, ONE, TWO)
    module.put(op.BRANCH, label)
    module.put(op.LABEL, label)
    return value, label


def switch_same(module):
    """Switches of 16,000 cases that all lead to one block, with a phi, and select by a value of the entry block."""
    value, before = selected(module)
    while module.room() > 32_010:
        after = module.fresh()
        cases = (word for number in range(16_000) for word in (number, after))
        module.put(op.SWITCH, value, after, *cases)
        module.put(op.LABEL, after)
        module.put(op.PHI, INT, module.fresh(), value, before)
        before = after
    closed(module)


def switch_wide(module):
    """Switches that each lead to the next one and to the same 1,000 blocks, and select by a value of the entry
    block."""
    value, label = selected(module)
    targets = [module.fresh() for _ in range(1_000)]
    cases = [word for number_and_label in enumerate(targets) for word in number_and_label]
    while module.room() > 6_020:
        label = module.fresh()
        module.put(op.SWITCH, value, label, *cases)
        module.put(op.LABEL, label)
    after = module.fresh()
    module.put(op.BRANCH, after)
    module.put(op.LABEL, after)
    module.put(op.PHI, INT, module.fresh(), value, label)
    for target in targets:
        module.put(op.RETURN)
        module.put(op.LABEL, target)
    closed(module)


def longest(module):
    """Instructions as long as they can be: strings of 262,131 octets, switches of 32,765 cases."""
    words = text_words("a" * 262_131)

    def strings(module):
        while module.room() > module.most // 2:
            module.put(op.STRING, module.fresh(), *words)

    opened(module, strings)
    kernel(module)
    last = module.fresh()
    while module.room() > LONGEST:
        after = module.fresh()
        cases = (word for number in range(32_765) for word in (number, last))
        module.put(op.SWITCH, ONE, after, *cases)
        module.put(op.LABEL, after)
    module.put(op.BRANCH, last)
    module.put(op.LABEL, last)
    closed(module)


def phis(module):
    """Blocks that 10,000 others branch to, each with phis of as many pairs."""
    opened(module)
    kernel(module)
    branches = 10_000
    while module.room() > 11 * branches:
        entries = [module.fresh() for _ in range(branches)]
        after = module.fresh()
        module.put(op.SWITCH, ONE, entries[0], *(w for at, e in enumerate(entries[1:]) for w in (at, e)))
        for entry in entries:
            module.put(op.LABEL, entry)
            module.put(op.BRANCH, after)
        module.put(op.LABEL, after)
        for _ in range(2):
            pairs = (word for entry in entries for word in (ONE, entry))
            module.put(op.PHI, INT, module.fresh(), *pairs)
    closed(module)


def blocks(module):
    """Very many small blocks, each with a branch back to the second one."""
    opened(module)
    kernel(module)
    second = module.fresh()
    module.put(op.BRANCH, second)
    module.put(op.LABEL, second)
    while module.room() > 6:
        after = module.fresh()
        module.put(op.BRANCH_CONDITIONAL, TRUE, after, second)
        module.put(op.LABEL, after)
    closed(module)


def functions(module):
    """Very many functions, each of which calls the one before it."""
    opened(module)
    callee = None
    while module.room() > 14:
        function = module.fresh()
        module.put(op.FUNCTION, VOID, function, 0, FUNCTION_TYPE)
        module.put(op.LABEL, module.fresh())
        if callee is not None:
            module.put(op.FUNCTION_CALL, VOID, module.fresh(), callee)
        closed(module)
        callee = function
    kernel(module)
    closed(module)


def added(module, value):
    """An addition to a value; its value."""
    result = module.fresh()
    module.put(op.I_ADD, INT, result, value, ONE)
    return result


def put_diamond(module, value):
    """Ends a block by two ways that come together again, and begins the block where they do, with a phi of a value of
    each; its value."""
    left, right, join = module.fresh(), module.fresh(), module.fresh()
    module.put(op.BRANCH_CONDITIONAL, TRUE, left, right)
    pairs = []
    for label in (left, right):
        module.put(op.LABEL, label)
        pairs += [added(module, added(module, value)), label]
        module.put(op.BRANCH, join)
    module.put(op.LABEL, join)
    result = module.fresh()
    module.put(op.PHI, INT, result, *pairs)
    return result


def mid_functions(module):
    """Functions of 50 blocks: a loop of 16 diamonds with phis, of values that other blocks define."""
    opened(module)
    while module.room() > 700:
        module.put(op.FUNCTION, VOID, module.fresh(), 0, FUNCTION_TYPE)
        module.put(op.LABEL, module.fresh())
        value, loop, after = module.fresh(), module.fresh(), module.fresh()
        module.put(op.I_ADD, INT, value, ONE, TWO)
        module.put(op.BRANCH, loop)
        module.put(op.LABEL, loop)
        for _ in range(16):
            value = put_diamond(module, value)
        module.put(op.BRANCH_CONDITIONAL, TRUE, loop, after)
        module.put(op.LABEL, after)
        closed(module)
    kernel(module)
    closed(module)


def lines(module):
    """Line after line, each of which uses the file that an OpString declares."""
    file = module.fresh()
    opened(module, lambda module: module.put(op.STRING, file, *text_words("kernel.cl")))
    kernel(module)
    while module.room() > 4:
        module.put(op.LINE, file, len(module.words), 1)
    closed(module)


def members(module):
    """Structs of as many members as an instruction holds."""
    opened(module)
    while module.room() > LONGEST:
        module.put(op.TYPE_STRUCT, module.fresh(), *[INT] * (LONGEST - 2))
    kernel(module)
    closed(module)


def results_of(module, words):
    """The first id and the number of results that a module has room for, where each takes so many words."""
    count = (module.room() - 64) // words
    module.next += count
    return FIRST_FREE, count


def named(module):
    """Constants that all have names, so that each id is used before its definition."""
    first, count = results_of(module, 8)

    def put_names(module):
        for number in range(count):
            module.put(op.NAME, first + number, *text_words(f"{number:07}"))

    opened(module, put_names)
    for number in range(count):
        module.put(op.CONSTANT, INT, first + number, number)
    kernel(module)
    closed(module)


def symbols(module):
    """Values that each have a name of their own, of sixteen octets."""
    first, count = results_of(module, 10)

    def put_names(module):
        for number in range(count):
            module.put(op.NAME, first + number, *text_words(f"variable_{number:07}"))

    opened(module, put_names)
    for number in range(count):
        module.put(op.UNDEF, INT, first + number)
    kernel(module)
    closed(module)


def chain(module):
    """Blocks of one instruction, each of which branches to the next."""
    opened(module)
    kernel(module)
    while module.room() > 4:
        after = module.fresh()
        module.put(op.BRANCH, after)
        module.put(op.LABEL, after)
    closed(module)


def callers(module):
    """Very many functions, each of which calls the one after it."""
    opened(module)
    function = module.fresh()
    while module.room() > 14:
        after = module.fresh()
        module.put(op.FUNCTION, VOID, function, 0, FUNCTION_TYPE)
        module.put(op.LABEL, module.fresh())
        module.put(op.FUNCTION_CALL, VOID, module.fresh(), after)
        closed(module)
        function = after
    module.put(op.FUNCTION, VOID, function, 0, FUNCTION_TYPE)
    module.put(op.LABEL, module.fresh())
    closed(module)
    kernel(module)
    closed(module)


def downwards(module):
    """Values whose ids go down from the greatest that there can be."""
    opened(module)
    kernel(module)
    last = GREATEST_BOUND
    while module.room() > 3:
        last -= 1
        module.put(op.UNDEF, INT, last)
    closed(module)
    module.next = GREATEST_BOUND


def types(module):
    """Opaque types of different names, pointers to them, and function types of these."""
    opened(module)
    number = 0
    while module.room() > 13:
        opaque, pointer = module.fresh(), module.fresh()
        module.put(op.TYPE_OPAQUE, opaque, *text_words(f"{number:07}"))
        module.put(op.TYPE_POINTER, pointer, 5, opaque)
        module.put(op.TYPE_FUNCTION, module.fresh(), VOID, pointer)
        number += 1
    kernel(module)
    closed(module)


def chains(module):
    """Chains to the last of a struct's 65,000 members."""
    opened(module)
    members = 65_000
    last, struct, pointer, variable = (module.fresh() for _ in range(4))
    module.put(op.CONSTANT, INT, last, members - 1)
    module.put(op.TYPE_STRUCT, struct, *[INT] * members)
    module.put(op.TYPE_POINTER, pointer, 7, struct)
    kernel(module)
    module.put(op.VARIABLE, pointer, variable, 7)
    while module.room() > 5:
        module.put(op.IN_BOUNDS_ACCESS_CHAIN, POINTER, module.fresh(), variable, last)
    closed(module)


def arrays(module):
    """Arrays of arrays, and chains of up to 65,000 indexes into the outermost."""
    opened(module)
    element = INT
    while module.room() > module.most // 2:
        outer = module.fresh()
        module.put(op.TYPE_ARRAY, outer, element, TWO)
        element = outer
    depth = min(LONGEST - 535, element - FIRST_FREE)
    pointer, to_reached, variable = (module.fresh() for _ in range(3))
    module.put(op.TYPE_POINTER, pointer, 7, element)
    module.put(op.TYPE_POINTER, to_reached, 7, element - depth)
    kernel(module)
    module.put(op.VARIABLE, pointer, variable, 7)
    while module.room() > depth + 4:
        module.put(op.IN_BOUNDS_ACCESS_CHAIN, to_reached, module.fresh(), variable, *[ONE] * depth)
    closed(module)


def many_types(module):
    """Arrays of pointers, structs of these, and pointers to the structs."""
    opened(module)
    element = POINTER
    while module.room() > 12:
        array, struct, pointer = (module.fresh() for _ in range(3))
        module.put(op.TYPE_ARRAY, array, element, TWO)
        module.put(op.TYPE_STRUCT, struct, array, INT)
        module.put(op.TYPE_POINTER, pointer, 7, struct)
        element = pointer
    kernel(module)
    closed(module)


def deep_struct(module):
    """Structs within structs, 250 of them, and chains of as many indexes into the outermost."""
    opened(module)
    depth = 250
    outermost = []
    while module.room() > module.most // 2:
        struct = INT
        for _ in range(depth):
            outer = module.fresh()
            module.put(op.TYPE_STRUCT, outer, INT, struct)
            struct = outer
        outermost.append(struct)
    pointers = [(module.fresh(), struct) for struct in outermost]
    for pointer, struct in pointers:
        module.put(op.TYPE_POINTER, pointer, 7, struct)
    kernel(module)
    variables = [(module.fresh(), pointer) for pointer, _ in pointers]
    for variable, pointer in variables:
        module.put(op.VARIABLE, pointer, variable, 7)
    at = 0
    while variables and module.room() > depth + 4:
        variable = variables[at % len(variables)][0]
        module.put(op.IN_BOUNDS_ACCESS_CHAIN, POINTER, module.fresh(), variable, *[ONE] * depth)
        at += 1
    closed(module)


def calls(module):
    """Calls of one function that has 200 parameters."""
    opened(module)
    signature, function = module.fresh(), module.fresh()
    module.put(op.TYPE_FUNCTION, signature, VOID, *[INT] * 200)
    module.put(op.FUNCTION, VOID, function, 0, signature)
    for _ in range(200):
        module.put(op.FUNCTION_PARAMETER, INT, module.fresh())
    module.put(op.LABEL, module.fresh())
    closed(module)
    kernel(module)
    while module.room() > 204:
        module.put(op.FUNCTION_CALL, VOID, module.fresh(), function, *[ONE, TWO] * 100)
    closed(module)


def entries(module):
    """Very many functions, each with an entry point and an execution mode."""
    count = (module.room() - 64) // 16
    first = FIRST_FREE
    module.next += 2 * count

    def put_entries(module):
        for number in range(count):
            module.put(op.ENTRY_POINT, 6, first + 2 * number, *text_words("k"))
        for number in range(count):
            module.put(op.EXECUTION_MODE, first + 2 * number, 31)

    opened(module, put_entries)
    for number in range(count):
        module.put(op.FUNCTION, VOID, first + 2 * number, 0, FUNCTION_TYPE)
        module.put(op.LABEL, first + 2 * number + 1)
        closed(module)
    kernel(module)
    closed(module)


def decorations(module):
    """As many decorations as functions, half of these declared and imported."""
    count = (module.room() - 64) // 31
    first = FIRST_FREE
    module.next += 3 * count

    def put_decorations(module):
        for number in range(count):
            module.put(op.DECORATE, first + 3 * number, 41, *text_words("f"), 1)
            module.put(op.DECORATE, first + 3 * number + 1, 44, 4)
            module.put(op.DECORATE, ONE, 44, 8)

    module.put(op.CAPABILITY, 5)
    opened(module, put_decorations)
    for number in range(count):
        module.put(op.FUNCTION, VOID, first + 3 * number, 0, FUNCTION_TYPE)
        module.put(op.FUNCTION_END)
    for number in range(count):
        module.put(op.FUNCTION, VOID, first + 3 * number + 1, 0, FUNCTION_TYPE)
        module.put(op.LABEL, first + 3 * number + 2)
        closed(module)
    kernel(module)
    closed(module)


def many_decorates(module):
    """Variables that each have a decoration."""
    first, count = results_of(module, 8)

    def put_decorates(module):
        for number in range(count):
            module.put(op.DECORATE, first + number, 44, 4)

    opened(module, put_decorates)
    kernel(module)
    for number in range(count):
        module.put(op.VARIABLE, POINTER, first + number, 7)
    closed(module)


def composites(module):
    """Constants of one struct type of 30 members."""
    opened(module)
    struct = module.fresh()
    module.put(op.TYPE_STRUCT, struct, *[INT] * 30)
    while module.room() > 33:
        module.put(op.CONSTANT_COMPOSITE, struct, module.fresh(), *[ONE, TWO] * 15)
    kernel(module)
    closed(module)


def big_constant(module):
    """Constants of one array of 65,000 elements."""
    opened(module)
    count = 65_000
    length, array = module.fresh(), module.fresh()
    module.put(op.CONSTANT, INT, length, count)
    module.put(op.TYPE_ARRAY, array, INT, length)
    while module.room() > count + 3:
        module.put(op.CONSTANT_COMPOSITE, array, module.fresh(), *[ONE, TWO] * (count // 2))
    kernel(module)
    closed(module)


def again(module):
    """One id that is the result of every instruction: a fault at the second."""
    opened(module)
    kernel(module)
    value = module.fresh()
    while module.room() > 3:
        module.put(op.UNDEF, INT, value)
    closed(module)


def deep(module):
    """Parameters of parameters, as deep as an instruction is long; under deep.json."""
    while module.room() > LONGEST:
        module.words.append(LONGEST << 16 | 1)
        module.words.extend([0] * (LONGEST - 2) + [1])
    module.next = 1


DEEP_GRAMMAR = {
    "instructions": [{"opname": "OpDeep", "opcode": 1, "operands": [{"kind": "Nested"}]}],
    "operand_kinds": [
        {
            "kind": "Nested",
            "category": "ValueEnum",
            "enumerants": [
                {"enumerant": "More", "value": 0, "parameters": [{"kind": "Nested"}]},
                {"enumerant": "End", "value": 1},
            ],
        }
    ],
}


def masks(module):
    """Masks of 32 bits, each of which has a parameter; under masks.json."""
    while module.room() > 34:
        module.put(op.UNDEF, 0xFFFF_FFFF, *range(32))
    module.next = 1


MASKS_GRAMMAR = {
    "instructions": [{"opname": "OpMask", "opcode": 1, "operands": [{"kind": "Bits"}]}],
    "operand_kinds": [
        {
            "kind": "Bits",
            "category": "BitEnum",
            "enumerants": [
                {
                    "enumerant": f"Bit{bit}",
                    "value": f"0x{1 << bit:08x}",
                    "parameters": [{"kind": "LiteralInteger"}],
                }
                for bit in range(32)
            ],
        },
        {"kind": "LiteralInteger", "category": "Literal"},
    ],
}

def rounds(module):
    """A loop without an end, of additions and of calls of a function of three instructions."""
    opened(module)
    function = module.fresh()
    module.put(op.FUNCTION, VOID, function, 0, FUNCTION_TYPE)
    module.put(op.LABEL, module.fresh())
    module.put(op.I_ADD, INT, module.fresh(), ONE, TWO)
    closed(module)
    kernel(module)
    loop = module.fresh()
    module.put(op.BRANCH, loop)
    module.put(op.LABEL, loop)
    while module.room() > 54:
        for _ in range(10):
            module.put(op.I_ADD, INT, module.fresh(), ONE, TWO)
        module.put(op.FUNCTION_CALL, VOID, module.fresh(), function)
    module.put(op.BRANCH, loop)
    module.put(op.FUNCTION_END)


CHAIN_LENGTH = 40


def chained(module):
    """A kernel, and 40 functions of which each calls the next one."""
    opened(module)
    functions = [module.fresh() for _ in range(CHAIN_LENGTH)]
    for function, after in zip([KERNEL, *functions], [*functions, None]):
        module.put(op.FUNCTION, VOID, function, 0, FUNCTION_TYPE)
        module.put(op.LABEL, module.fresh())
        if after is not None:
            module.put(op.FUNCTION_CALL, VOID, module.fresh(), after)
        closed(module)


def unchained(module):
    """As many functions, and a kernel that takes as many steps without a call."""
    opened(module)
    kernel(module)
    module.words.extend([1 << 16] * (3 * CHAIN_LENGTH))
    closed(module)
    for _ in range(CHAIN_LENGTH):
        module.put(op.FUNCTION, VOID, module.fresh(), 0, FUNCTION_TYPE)
        module.put(op.LABEL, module.fresh())
        closed(module)


SHAPES = {
    "tiny": tiny,
    "straight": straight,
    "maths": maths,
    "nops": nops,
    "constants": constants,
    "texts": texts,
    "names": names,
    "longer-names": longer_names,
    "memory": memory,
    "switches": switches,
    "switch-same": switch_same,
    "switch-wide": switch_wide,
    "longest": longest,
    "phis": phis,
    "blocks": blocks,
    "functions": functions,
    "mid-functions": mid_functions,
    "lines": lines,
    "members": members,
    "named": named,
    "symbols": symbols,
    "chain": chain,
    "callers": callers,
    "downwards": downwards,
    "types": types,
    "many-types": many_types,
    "deep-struct": deep_struct,
    "chains": chains,
    "arrays": arrays,
    "calls": calls,
    "entries": entries,
    "decorations": decorations,
    "many-decorates": many_decorates,
    "composites": composites,
    "big-constant": big_constant,
    "again": again,
    "deep": deep,
    "masks": masks,
}

# Shapes whose names take many octets each where they are written.
NAMED = {
    f"{shape}-{kind}": partial(put, text=text * 64)
    for shape, put in (("stores", named_stores), ("elements", named_constants))
    for kind, text in (("plain", "n"), ("controls", "\x01"), ("quotes", '"'))
}

TRACED = {"rounds": rounds, "chained": chained, "unchained": unchained}

GRAMMARS = {"deep": DEEP_GRAMMAR, "masks": MASKS_GRAMMAR}
