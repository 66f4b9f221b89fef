"""Changes of a kernel's module near what the rules O and Y10 ask: another version, scopes and semantics, controls of
loops, weights, literals, decorations of ids, members and groups, interfaces, entry points, modes, capabilities,
extensions, classes, widths, initializers, blocks in another order, blocks that nothing leads to, copies and atomics,
and instructions of OpenCL.std.

A change is a function of a module in the making, which answers False where it finds nothing to change.
"""

import struct

from reading.decode import instructions, words_of
from reading.extended import EXTENDED, OPENCL, kinds_of
from reading.order import ENDS, SHAPE_OF, taken
from reading.profiles import Profile

from .module import text_words

SCOPES = range(8)
ORDERS = (0, 2, 4, 6, 8, 10, 16, 18, 24, 64, 72, 256, 258, 264, 272, 520, 768, 784, 1024, 4096, 8192, 8196)
ORDERS += (16386, 32768)
LOOP_BITS, WITH_NUMBER = tuple(1 << bit for bit in range(9)), 8
WEIGHTS = (0, 0, 1, 5, 0x80000000, 0xFFFFFFFF)
TYPES = (19, 20, 21, 22, 23, 25, 26, 28, 30, 31, 32, 33, 41, 42, 43, 44, 46, 59, 1, 8, 317)
# What may stand before the body of a block, and what ends one.
BEFORE_BODY = (59, 245, 8, 317, 12)
# What stands behind a decoration: some lists of words, one of which is taken; None for the id of a constant.
BEHIND = {
    1: [[3]],
    11: [[28], [30], [0], [4416]],
    30: [[1]],
    38: [[0], [5]],
    39: [[0], [1]],
    40: [[1], [16]],
    41: [[*text_words("x"), kind] for kind in range(3)],
    44: [[4], [3]],
    45: [[4]],
    5635: [text_words("u")],
    46: None,
    47: None,
    5634: None,
}
BY_IDS, BY_TEXTS = (46, 47), (5635,)
DECORATIONS = (1, 10, 11, 19, 20, 21, 23, 24, 25, 26, 28, 38, 39, 40, 41, 42, 44, 45, 46, 47, 4469, 4470, 5635)
# Of some decorations what they are for, most often.
FOR = {
    1: (48, 49, 50),
    10: (30,),
    11: (59,),
    **dict.fromkeys((19, 20, 21, 23, 24, 25), (59, 55)),
    22: (59,),
    28: (109, 110, 111, 113, 114, 115, 117, 124),
    41: (54, 59),
    44: (55, 57, 59, 61, 65, 66, 67, 70, 124),
    45: (55, 61, 65, 70),
    46: (55, 61, 65),
    4469: (12, 126, 128, 129, 130, 132, 134, 196),
    4470: (12, 126, 128, 130, 132, 196),
}
EXTENSIONS = (
    "SPV_KHR_no_integer_wrap_decoration",
    "SPV_KHR_float_controls",
    "SPV_GOOGLE_hlsl_functionality1",
    "SPV_KHR_linkonce_odr",
    "SPV_KHR_8bit_storage",
    "SPV_KHR_non_semantic_info",
)
MODES = {17: [1, 1, 1], 18: [1, 2, 1], 30: [1], 31: [], 33: [], 35: [8], 4459: [32]}
LOCAL_SIZE_BY_IDS = 38


class Near:
    """A module that is changed: its header, and each instruction with its words, None in place of one that is new."""

    def __init__(self, grammar, content, chance):
        words = words_of(content, Profile.OPENCL)
        found = instructions(grammar, words)
        ends = [*(it.word for it in found[1:]), len(words)]
        self.grammar, self.chance, self.header = grammar, chance, list(words[:5])
        self.insts = [[inst, list(words[inst.word : end])] for inst, end in zip(found, ends)]

    def all_of(self, *opcodes):
        """The places of the instructions with these opcodes."""
        return [at for at, (_, words) in enumerate(self.insts) if words[0] & 0xFFFF in opcodes]

    def one_of(self, *opcodes):
        """The place of one of them, None where there is none."""
        places = self.all_of(*opcodes)
        return self.chance.choice(places) if places else None

    def fresh(self):
        """An id that nothing has."""
        self.header[3] += 1
        return self.header[3] - 1

    def put(self, at, opcode, *words):
        """A new instruction at a place."""
        self.insts.insert(at, [None, [len(words) + 1 << 16 | opcode, *words]])

    def set(self, at, words):
        """Other words behind the first of an instruction."""
        self.insts[at][1] = [len(words) + 1 << 16 | self.insts[at][1][0] & 0xFFFF, *words]

    def behind(self, at):
        """The words behind the first of an instruction."""
        return self.insts[at][1][1:]

    def defined(self):
        """What defines each id, but for what is new."""
        return {inst.result: inst for inst, _ in self.insts if inst is not None and inst.result is not None}

    def first_function(self):
        return self.all_of(54)[0]

    def decorations(self):
        """Where a decoration may stand."""
        places = self.all_of(71, 72, 332)
        return places[-1] + 1 if places else self.all_of(*TYPES)[0]

    def constant(self, value):
        """A new constant of an int of 32 bits, None where there is no such type."""
        of = next((words[1] for _, words in self.insts if words[0] & 0xFFFF == 21 and words[2] == 32), None)
        if of is None:
            return None
        result = self.fresh()
        self.put(self.first_function(), 43, of, result, value)
        return result

    def undefined(self, of):
        """A new undefined value of a type."""
        result = self.fresh()
        self.put(self.first_function(), 1, of, result)
        return result

    def body(self, label):
        """Where the body of a block begins, of the place of its OpLabel."""
        at = label + 1
        while self.insts[at][1][0] & 0xFFFF in BEFORE_BODY:
            at += 1
        return at

    def some_id(self):
        """An id: one of some opcode."""
        defined = self.defined()
        opcode = self.chance.choice(sorted({it.opcode for it in defined.values()}))
        return self.chance.choice([of for of, it in defined.items() if it.opcode == opcode])

    def parameters(self, decoration):
        """What stands behind a decoration."""
        lists = BEHIND.get(decoration, [[]])
        if lists is not None:
            return self.chance.choice(lists)
        ids = [of for of, it in self.defined().items() if it.opcode in (43, 59)]
        return [self.chance.choice(ids)] if ids else [1]

    def content(self):
        """The bytes."""
        words = [*self.header, *(word for _, each in self.insts for word in each)]
        return struct.pack(f"<{len(words)}I", *words)


def version(near):
    near.header[1] = 0x00010000 | near.chance.randrange(7) << 8


def orders(near):
    """Another scope, or other semantics."""
    sites = []
    for at, (inst, _) in enumerate(near.insts):
        words = taken(SHAPE_OF[inst.opcode], inst.operands) if inst and inst.opcode in SHAPE_OF else ()
        sites += [(at, place, word) for place, word in enumerate(words or (), 1) if word in ("c", "m")]
    if not sites:
        return False
    at, place, word = near.chance.choice(sites)
    words, of = near.insts[at][1], near.constant(near.chance.choice(SCOPES if word == "c" else ORDERS))
    if of is None:
        return False
    words[place] = of
    return True


def loop_control(near):
    at = near.one_of(246)
    if at is None:
        return False
    bits = [bit for bit in LOOP_BITS if near.chance.random() < 0.25]
    numbers = [near.chance.randrange(4) for bit in bits if bit >= WITH_NUMBER]
    near.set(at, [*near.behind(at)[:2], sum(bits), *numbers])
    return True


def weights(near):
    at = near.one_of(250)
    if at is None:
        return False
    near.set(at, [*near.behind(at)[:3], *near.chance.choices(WEIGHTS, k=near.chance.choice((1, 2, 2, 2)))])
    return True


def literals(near):
    """Another literal of a switch."""
    at = near.one_of(251)
    words = near.behind(at) if at is not None else ()
    if len(words) < 4:
        return False
    words[near.chance.randrange(2, len(words), 2)] = near.chance.choice((words[2], 0, 1, 255, 256, 0xFFFFFFFF))
    near.set(at, words)
    return True


def decorate(near):
    """A decoration of any id."""
    decoration, of = near.chance.choice(DECORATIONS), near.some_id()
    is_odd = near.chance.random() < 0.25
    opcode = 71 if is_odd else 332 if decoration in BY_IDS else 5632 if decoration in BY_TEXTS else 71
    near.put(near.decorations(), opcode, of, decoration, *near.parameters(decoration))


def decorate_what_it_is_for(near):
    decoration = near.chance.choice(list(FOR))
    ids = [of for of, it in near.defined().items() if it.opcode in FOR[decoration]]
    if not ids:
        return False
    of = near.chance.choice(ids)
    both = (19, 20) if decoration == 19 and near.chance.random() < 0.5 else (decoration,)
    for each in both:
        near.put(near.decorations(), 332 if each in BY_IDS else 71, of, each, *near.parameters(each))
    return True


def group(near):
    """A decoration of a group, which is given to an id or two."""
    decoration, own, at = near.chance.choice(DECORATIONS), near.fresh(), near.decorations()
    decoration = 21 if decoration in (*BY_IDS, *BY_TEXTS) else decoration
    ids = [near.some_id() for _ in range(near.chance.choice((1, 2)))]
    near.put(at, 71, own, decoration, *near.parameters(decoration))
    near.put(at + 1, 73, own)
    near.put(at + 2, 74, own, *ids)


def member(near):
    """A name or decorations of members."""
    structs = [it for it in near.defined().values() if it.opcode == 30]
    if not structs:
        return False
    struct_type, how = near.chance.choice(structs), near.chance.randrange(4)
    of = struct_type.result if near.chance.random() < 0.85 else near.some_id()
    count, decoration = len(struct_type.operands) - 1, near.chance.choice(DECORATIONS)
    place, names = near.chance.randrange(count + 2), near.all_of(5, 6)
    if how == 0:
        near.put(names[-1] + 1 if names else near.decorations(), 6, of, place, *text_words("m"))
    elif how == 1:
        for at in range(count - (near.chance.random() < 0.5)):
            near.put(near.decorations(), 72, of, at, 11, 30)
    else:
        near.put(near.decorations(), 72, of, place, decoration, *near.parameters(decoration))
    return True


def interface(near):
    """Another interface, most often of a module of another version."""
    at = near.one_of(15)
    if at is None:
        return False
    words = near.behind(at)
    begin = 2 + len(near.insts[at][0].operands[2][1].encode()) // 4 + 1 if near.insts[at][0] else len(words)
    found = words[begin:]
    ids = [it.result for it, _ in near.insts[: near.first_function()] if it is not None and it.opcode == 59]
    if found and near.chance.random() < 0.4:
        found.remove(near.chance.choice(found))
    elif ids:
        found.append(near.chance.choice(ids))
    near.set(at, [*words[:begin], *found])
    if near.chance.random() < 0.6:
        near.header[1] = 0x00010000 | near.chance.choice((0, 3, 4, 5, 6)) << 8
    return True


def entry_point(near):
    """An entry point once more, of this or another function, by this or another name."""
    at = near.one_of(15)
    if at is None:
        return False
    inst, words = near.insts[at][0], list(near.insts[at][1])
    functions = [near.insts[place][0].result for place in near.all_of(54) if near.insts[place][0]]
    if near.chance.random() < 0.5:
        words[2] = near.chance.choice(functions)
    if near.chance.random() < 0.4:
        words[3] ^= 1
    near.insts.insert(at + 1, [inst, words])
    return True


def blocks(near):
    """The blocks of a function, but for the first, in another order."""
    ends, labels = near.all_of(56), near.all_of(248)
    begins = [0, *ends]
    functions = [(end, [it for it in labels if begin < it < end]) for begin, end in zip(begins, ends)]
    functions = [it for it in functions if len(it[1]) > 2]
    if not functions:
        return False
    end, starts = near.chance.choice(functions)
    parts = [near.insts[one:other] for one, other in zip(starts, [*starts[1:], end])]
    first, rest = parts[0], parts[1:]
    one, other = (near.chance.randrange(len(rest)) for _ in range(2))
    rest[one], rest[other] = rest[other], rest[one]
    if near.chance.random() < 0.5:
        near.chance.shuffle(rest)
    near.insts[starts[0] : end] = [inst for part in (first, *rest) for inst in part]
    return True


def capability(near):
    """One less, or another one."""
    places = near.all_of(17)
    if near.chance.random() < 0.5:
        del near.insts[near.chance.choice(places)]
    else:
        near.put(places[-1] + 1, 17, near.chance.choice(list(near.grammar.enumerants["Capability"])))


def extension(near):
    """Another extension, of another version."""
    near.put(near.all_of(17)[-1] + 1, 10, *text_words(near.chance.choice(EXTENSIONS)))
    version(near)


def mode(near):
    at, size = near.one_of(15), near.constant(4)
    if at is None or size is None:
        return False
    function, number = near.behind(at)[1], near.chance.choice((*MODES, LOCAL_SIZE_BY_IDS, LOCAL_SIZE_BY_IDS))
    last = near.all_of(15, 16, 331)[-1]
    near.put(last + 1, near.chance.choice((16, 16, 331)), function, number, *MODES.get(number, [size] * 3))
    return True


def storage(near):
    """Another storage class of a pointer type, and most often of its variables."""
    at = near.one_of(32)
    if at is None:
        return False
    words, kind = near.insts[at][1], near.chance.choice((0, 1, 3, 4, 5, 6, 7, 8))
    words[2] = kind
    for _, other in near.insts:
        if other[0] & 0xFFFF == 59 and other[1] == words[1] and near.chance.random() < 0.9:
            other[3] = kind
    return True


def pointer(near):
    """Another pointer where one is written or used by an atomic."""
    at = near.one_of(62, 63, 64, *range(227, 243), 318, 319)
    if at is None:
        return False
    words, defined = near.insts[at][1], near.defined()
    place = 1 if words[0] & 0xFFFF in (62, 63, 64, 228, 319) else 3
    of = defined[words[place]].type if words[place] in defined else None
    words[place] = near.chance.choice([it.result for it in defined.values() if it.type == of or it.opcode == 59])
    return True


def width(near):
    at = near.one_of(21, 22)
    if at is None:
        return False
    near.insts[at][1][2] = near.chance.choice((8, 16, 32, 64))
    return True


def initializer(near):
    """An initializer of a variable, which may be linked, too."""
    places = [at for at in near.all_of(59) if len(near.insts[at][1]) == 4]
    if not places:
        return False
    at = near.chance.choice(places)
    words, null = near.behind(at), near.fresh()
    pointee = near.defined()[words[0]].operands[2][1]
    near.set(at, [*words, null])
    near.put(min(at, near.first_function()), 46, pointee, null)
    if near.chance.random() < 0.5:
        near.put(near.decorations(), 71, words[1], 41, *text_words("v"), near.chance.choice((0, 1)))
    return True


def library_call(near):
    """Another number, argument or type of an instruction of OpenCL.std."""
    at = near.one_of(EXTENDED)
    if at is None:
        return False
    words, defined, how = near.insts[at][1], near.defined(), near.chance.random()
    values = [of for of, it in defined.items() if it.type is not None and it.opcode != 54]
    if how < 0.35:
        words[4] = near.chance.choice((words[4], *range(205)))
    elif how < 0.75 and len(words) > 5 and values:
        words[near.chance.randrange(5, len(words))] = near.chance.choice(values)
    else:
        words[1] = near.chance.choice([of for of, it in defined.items() if it.opcode in (19, 20, 21, 22, 23, 32)])
    return True


def new_library_call(near):
    """An instruction of OpenCL.std of undefined values, in some block."""
    sets = [words[1] for inst, words in near.insts if inst and inst.opcode == 11 and inst.operands[1][1] == OPENCL]
    number = near.chance.randrange(205)
    kinds, defined = kinds_of(OPENCL, number), near.defined()
    types = [of for of, it in defined.items() if it.opcode in (21, 22, 23, 32)]
    if not sets or kinds is None or not types:
        return False
    most = near.chance.choice(types)
    chosen = [most if near.chance.random() < 0.6 else near.chance.choice(types) for _ in kinds]
    values = [
        near.undefined(of) if kind.startswith("IdRef") else near.chance.choice((0, 1, 2, 3, 4, 8, 16))
        for kind, of in zip(kinds, chosen)
    ]
    voids = [of for of, it in defined.items() if it.opcode == 19]
    result = near.chance.choice((most, most, most, *voids))
    near.put(near.body(near.one_of(248)), EXTENDED, result, near.fresh(), sets[0], number, *values)
    return True


def dead_block(near):
    """A block that nothing leads to, with values that may be used before they are made."""
    one = near.constant(1)
    at = near.one_of(56)
    if one is None or near.insts[at - 1][1][0] & 0xFFFF not in ENDS:
        return False
    of = next(words[1] for _, words in near.insts if words[0] & 0xFFFF == 21 and words[2] == 32)
    first, second = near.fresh(), near.fresh()
    near.put(at, 248, near.fresh())
    near.put(at + 1, 128, of, first, near.chance.choice((first, second, one)), one)
    near.put(at + 2, 128, of, second, near.chance.choice((first, one)), one)
    near.put(at + 3, 255)
    return True


def copy(near):
    """A copy between variables, sized or not, with up to two masks."""
    variables = [it for it in near.defined().values() if it.opcode == 59]
    if not variables:
        return False
    to = near.chance.choice(variables)
    source = near.chance.choice([it for it in variables if it.type == to.type])
    masks = near.chance.choice(([], [1], [1, 1], [2, 4, 0], [0, 0]))
    size = [near.constant(near.chance.choice((0, 4)))] if near.chance.random() < 0.5 else []
    if None in size:
        return False
    near.put(near.body(near.one_of(248)), 64 if size else 63, to.result, source.result, *size, *masks)
    if near.chance.random() < 0.5:
        version(near)
    return True


def atomic(near):
    """An atomic of an undefined pointer to a number."""
    defined = near.defined()
    pointers = [it for it in defined.values() if it.opcode == 32 and defined[it.operands[2][1]].opcode in (21, 22)]
    if not pointers or near.constant(0) is None:
        return False
    chosen = near.chance.choice(pointers)
    pointee, opcode = chosen.operands[2][1], near.chance.choice((227, 228, 229, 230, 230, 231, 234, 239, 319))
    at, value = near.undefined(chosen.result), near.undefined(pointee)
    scope = near.constant(near.chance.choice(SCOPES))
    one, other = (near.constant(near.chance.choice(ORDERS)) for _ in range(2))
    begin = [] if opcode in (228, 319) else [pointee, near.fresh()]
    more = {228: [value], 229: [value], 234: [value], 239: [value]}.get(opcode, [])
    more = [other, value, value] if opcode in (230, 231) else more
    near.put(near.body(near.one_of(248)), opcode, *begin, at, scope, one, *more)
    return True


CHANGES = (
    *(version, orders, orders, loop_control, weights, literals, decorate, decorate_what_it_is_for, group, member),
    *(decorate_what_it_is_for, interface, entry_point, blocks, blocks, capability, extension, mode, storage, pointer),
    *(width, initializer, library_call, new_library_call, dead_block, copy, atomic, atomic),
)
TRIES = 9


def changed(grammar, content, chance):
    """The bytes with one or two changes, and their names."""
    near, done = Near(grammar, content, chance), []
    for _ in range(chance.choice((1, 1, 2))):
        for _ in range(TRIES):
            change = chance.choice(CHANGES)
            if change(near) is not False:
                done.append(change.__name__)
                break
    return near.content(), done
