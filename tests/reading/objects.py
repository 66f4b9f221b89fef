"""What `--opencl` adds to the tables of types, constants and operations: Y2, Y4, Y5 and C2 of its instructions."""

from .forms import (
    ARRAY,
    BOOL,
    CONSTANTS,
    DEVICE_EVENT,
    EVENT,
    FLOAT,
    FUNCTION,
    IMAGE,
    INT,
    NAMED_BARRIER,
    OF_PIPE_STORAGE,
    OF_SAMPLER,
    PIPE,
    PIPE_STORAGE,
    POINTER,
    QUEUE,
    RESERVE_ID,
    SAMPLED_IMAGE,
    SAMPLER,
    SPECIAL,
    STRUCT,
    VECTOR,
    VOID,
)
from .order import opcodes_in

WORKGROUP, CROSS_WORKGROUP, GENERIC, OF_IMAGE = 4, 5, 8, 11
IMAGE_BASIC, IMAGE_READ_WRITE = 13, 14
# The operand that needs each, None where it is the instruction.
NEEDED_AT = {IMAGE_BASIC: None, IMAGE_READ_WRITE: 8}
GROUP, MODEL, VARIABLE = 73, 14, 59
# The bits of a mask of image operands that may be set, with the values that each has.
IMAGE_OPERANDS = {2: 1, 4: 2, 8: 1, 64: 1, 4096: 0, 8192: 0, 16384: 0}
LOD, GRAD, OFFSET, SAMPLE, SIGN_EXTEND, ZERO_EXTEND = 2, 4, 8, 64, 4096, 8192
SAMPLE_EXPLICIT = 88
PLANES = {0: 1, 5: 1, 1: 2, 4: 2, 2: 3, 3: 3}
CUBE = 3
DEBUG = ("OpenCL.DebugInfo.100", "DebugInfo", "SPIRV.debug")
NON_SEMANTIC = "NonSemantic."


class Image:
    """An image type's operands."""

    def __init__(self, types, of):
        rest = types.rest(of)
        self.sampled_type, self.dim, _, self.arrayed, self.is_multiple, self.sampled = rest[:6]
        self.plane = PLANES.get(self.dim)
        self.places = None if self.plane is None else self.plane + self.arrayed
        self.extent = 2 + self.arrayed if self.dim == CUBE else self.places


def needed(inst):
    """The capabilities that an instruction needs besides those of the grammar file."""
    found = [IMAGE_BASIC] if inst.opcode in (IMAGE, SAMPLER) else []
    is_both = inst.opcode == IMAGE and len(inst.operands) > 8 and inst.operands[8][2] == 2
    return [*found, IMAGE_READ_WRITE] if is_both else found


def image_declared(types, rest):
    sampled_type, _, depth, arrayed, is_multiple, sampled = rest[:6]
    are_words = depth <= 2 and arrayed <= 1 and is_multiple <= 1 and sampled <= 2
    return types.form(sampled_type) in (VOID, INT, FLOAT) and are_words


def sampled_image_declared(types, rest):
    return types.form(rest[0]) == IMAGE and Image(types, rest[0]).dim not in (5, 6)


def matches(types, one, other):
    """Whether two types match: each pair of types is looked at once."""
    seen, left = set(), [(one, other)]
    while left:
        pair = left.pop()
        if pair[0] == pair[1] or pair in seen:
            continue
        seen.add(pair)
        (first, second), forms = map(types.rest, pair), {types.form(it) for it in pair}
        if forms == {ARRAY} and first[1] == second[1]:
            left.append((first[0], second[0]))
        elif forms == {STRUCT} and len(first) == len(second):
            left += zip(first, second)
        else:
            return False
    return True


# Y2 of the types that it asks something of: the types, and what the declaration's operands hold.
DECLARED = {IMAGE: image_declared, SAMPLED_IMAGE: sampled_image_declared}

# Y4 of constants.
CONSTANT = {
    OF_SAMPLER: lambda types, inst: types.form(inst.type) == SAMPLER and inst.operands[3][1] <= 1,
    OF_PIPE_STORAGE: lambda types, inst: types.form(inst.type) == PIPE_STORAGE,
}


class Row:
    """An instruction with the types at it: its result type `r`, those of its value operands in their order, and what
    its operands of other kinds hold. By letters these are `o`, `p`, `q` and `fourth`."""

    def __init__(self, types, number, inst, words):
        self.types, self.number, self.inst, self.r = types, number, inst, inst.type
        with_words = list(zip(inst.operands, words))
        self.ids = [it[1] for it, word in with_words if word == "v"]
        self.orders = [it[1] for it, word in with_words if word in "cm"]
        self.functions = [it[1] for it, word in with_words if word == "f"]
        self.kinds = {it[1]: it[2] for it in inst.operands if it[0] in ("Value", "Mask")}
        self.tags = [types.type_of(it) for it in self.ids]
        self.o, self.p, self.q, self.fourth = (*self.tags, None, None, None, None)[:4]

    def is_form(self, of, *forms):
        return self.types.form(of) in forms

    def are_form(self, form, *tags):
        return all(self.types.form(of) == form for of in tags)

    def are_int32(self, *tags):
        return all(self.types.form(of) == INT and self.types.rest(of)[0] == 32 for of in tags)

    def is_size(self, *tags):
        """Whether types are ints as wide as an address."""
        model = next(it for it in self.types.insts if it.opcode == MODEL).operands[0][2]
        width = {1: 32, 2: 64}.get(model)
        return all(self.types.form(of) == INT and self.types.rest(of)[0] == width for of in tags)

    def is_of(self, scalars, of):
        return self.types.shape(of)[0] in scalars

    def count(self, of):
        return self.types.count(of)

    def component(self, of):
        return self.types.rest(of)[0] if self.types.form(of) == VECTOR else None

    def pointer(self, of):
        return self.types.pointer(of)

    def is_pointer(self, of, *classes):
        return self.types.pointer(of)[0] in classes

    def points_to(self, form, *tags):
        return all(self.types.form(self.types.pointer(of)[1]) == form for of in tags)

    def is_constant(self, of):
        return self.types.definition(of).opcode in CONSTANTS + SPECIAL

    def image_of(self, of):
        """The operands of an image type, None of any other."""
        return Image(self.types, of) if self.types.form(of) == IMAGE else None

    def image(self):
        """The operands of the first value's type, if it is an image type."""
        return self.image_of(self.o)

    def is_coordinate(self, image, of, scalars):
        """Whether a type has a component for each place of an image."""
        return image.places is not None and self.is_of(scalars, of) and self.count(of) >= image.places

    def is_texel(self, image, of):
        inner = self.component(of) or of
        is_sampled = self.types.form(image.sampled_type) == VOID or inner == image.sampled_type
        return self.is_of((INT, FLOAT), of) and is_sampled

    def has_image_operands(self, image, texel, before):
        """Whether the mask of image operands and the values behind it fit, so many values standing before."""
        mask = self.kinds.get("ImageOperands", 0)
        bits = [1 << bit for bit in range(32) if mask >> bit & 1]
        if any(bit not in IMAGE_OPERANDS for bit in bits) or sum(map(IMAGE_OPERANDS.get, bits)) != len(self.ids) - before:
            return False
        is_explicit, at = self.inst.opcode == SAMPLE_EXPLICIT, before
        for bit in bits:
            ids, tags = self.ids[at : at + IMAGE_OPERANDS[bit]], self.tags[at : at + IMAGE_OPERANDS[bit]]
            at += IMAGE_OPERANDS[bit]
            if not self.is_image_operand(image, bit, ids, tags, is_explicit):
                return False
        has_level = ((mask & LOD) != 0) + ((mask & GRAD) != 0) == 1 if is_explicit else not mask & GRAD
        has_sample = bool(mask & SAMPLE) == (not is_explicit and image.is_multiple == 1)
        extends = mask & (SIGN_EXTEND | ZERO_EXTEND)
        has_sign = extends == 0 or extends in (SIGN_EXTEND, ZERO_EXTEND) and self.is_of((INT,), texel)
        return has_level and has_sample and has_sign

    def is_image_operand(self, image, bit, ids, tags, is_explicit):
        """Whether the values of one bit fit."""
        if bit == LOD:
            return self.is_form(tags[0], FLOAT if is_explicit else INT)
        if bit == GRAD:
            return all(self.is_of((FLOAT,), it) and self.count(it) == image.plane for it in tags)
        if bit == OFFSET:
            return self.is_constant(ids[0]) and self.is_of((INT,), tags[0]) and self.count(tags[0]) == image.plane
        return bit != SAMPLE or self.is_form(tags[0], INT)

    def is_sizes(self, of, lengths):
        """Whether a type is an array of one of these lengths of ints as wide as an address."""
        if self.types.form(of) != ARRAY:
            return False
        inner, length = self.types.rest(of)
        return self.is_size(inner) and self.types.value(length) in lengths

    def is_range_struct(self, of):
        members = self.types.rest(of) if self.types.form(of) == STRUCT else []
        return len(members) == 4 and self.are_int32(members[0]) and all(self.is_sizes(it, (3,)) for it in members[1:])

    def is_range(self, of):
        return self.is_range_struct(of) or self.is_range_struct(self.types.pointer(of)[1])

    def signature(self):
        """What the function type of the invoked function names, None where it is no function type."""
        of = self.types.definition(self.functions[0]).operands[-1][1]
        return self.types.rest(of) if self.types.form(of) == FUNCTION else None

    def is_block(self, first):
        """Whether three values from this place on are the invoked function's block, its size and its alignment."""
        block, size, alignment = self.tags[first : first + 3]
        signature, pointed = self.signature(), self.pointer(block)[1]
        if signature is None or len(signature) < 2 or self.types.form(signature[0]) != VOID or signature[1] != block:
            return False
        is_octets = self.types.form(pointed) == INT and self.types.rest(pointed)[0] == 8
        return is_octets and self.are_int32(size, alignment)

    def has_locals(self, first):
        """Whether the values from this place on are sizes of memory, a parameter of the invoked function for each."""
        given, wanted = self.tags[first:], self.signature()[2:]
        are_sizes = all(self.is_form(it, INT) or self.points_to(INT, it) for it in given)
        return are_sizes and len(given) == len(wanted) and all(self.is_pointer(it, WORKGROUP) for it in wanted)

    def is_ballot(self, of):
        return self.component(of) is not None and self.are_int32(self.component(of)) and self.count(of) == 4

    def is_scan(self):
        return self.kinds["GroupOperation"] in (0, 1, 2)

    def is_cluster(self):
        if self.p is None:
            return self.is_scan()
        return self.kinds["GroupOperation"] == 3 and self.is_form(self.p, INT) and self.is_constant(self.ids[1])

    def is_pipe(self, *writers):
        """Whether the first value is a pipe that is written to, by these opcodes, or read, by others."""
        return self.is_form(self.o, PIPE) and self.types.rest(self.o) == [int(self.inst.opcode in writers)]

    def is_dot(self):
        if not self.is_form(self.r, INT) or self.o != self.p:
            return False
        if "PackedVectorFormat" in self.kinds:
            return self.are_int32(self.o)
        inner = self.component(self.o)
        is_vector = self.types.form(inner) == INT
        return is_vector and self.types.rest(inner)[0] <= self.types.rest(self.r)[0]

    def behind(self, sort):
        """The operands behind the first one of a sort."""
        at = next(number for number, it in enumerate(self.inst.operands) if it[0] == sort)
        return self.inst.operands[at + 1 :]


def is_extended(row):
    """In no block an extended instruction is one of a set that no result hangs on."""
    if row.types.places.function[row.number] is not None:
        return True
    name = row.types.definition(row.inst.operands[2][1]).operands[1][1]
    return row.is_form(row.r, VOID) and (name in DEBUG or name.startswith(NON_SEMANTIC))


def is_group(types, of):
    return types.definition(of).opcode == GROUP


def groups(row):
    """A group decorates what is no group."""
    group, *others = (it[1] for it in row.inst.operands)
    return is_group(row.types, group) and not any(is_group(row.types, it) for it in others)


def groups_members(row):
    """A group decorates members of structs."""
    (_, group), *pairs = row.inst.operands
    members = [(of, member) for (_, of), (_, member) in zip(pairs[::2], pairs[1::2])]
    types = row.types
    are_members = all(types.form(of) == STRUCT and member < len(types.rest(of)) for of, member in members)
    return is_group(types, group) and are_members


def takes_ints(row):
    """Constants of int type stand behind the mode."""
    given = row.behind("Value")
    types = row.types
    are_ids = bool(given) and all(it[0] == "Id" for it in given)
    return are_ids and all(row.is_constant(it[1]) and types.form(types.type_of(it[1])) == INT for it in given)


def takes_ids(row):
    """Constants or variables of section 9 stand behind the decoration."""
    given, types = row.behind("Value"), row.types

    def is_there(of):
        is_variable = types.definition(of).opcode == VARIABLE
        return row.is_constant(of) or is_variable and types.places.function[types.definitions[of]] is None

    return bool(given) and all(it[0] == "Id" and is_there(it[1]) for it in given)


def takes_texts(row):
    """Texts stand behind the decoration."""
    given = row.behind("Value")
    return bool(given) and all(it[0] == "Text" for it in given)


def is_pointed_at(row):
    """The pointer to a texel of an image."""
    image = row.image_of(row.pointer(row.o)[1])
    if image is None or image.places is None or row.pointer(row.r) != [OF_IMAGE, image.sampled_type]:
        return False
    return row.is_of((INT,), row.p) and row.count(row.p) == image.places and row.is_form(row.q, INT)


def is_joined(row):
    """An image with a sampler."""
    image = row.image()
    is_given = image is not None and image.sampled in (0, 1) and row.is_form(row.p, SAMPLER)
    return is_given and row.is_form(row.r, SAMPLED_IMAGE) and row.types.rest(row.r) == [row.o]


def is_product(row):
    """A number of two vectors of floats."""
    return row.o == row.p and row.is_of((FLOAT,), row.o) and row.component(row.o) == row.r


def is_sampled(row):
    """A texel that is looked up by a sampler."""
    image = row.image_of(row.types.rest(row.o)[0]) if row.is_form(row.o, SAMPLED_IMAGE) else None
    if image is None or image.is_multiple != 0 or not row.is_coordinate(image, row.p, (INT, FLOAT)):
        return False
    return is_four(row, image) and row.has_image_operands(image, row.r, 2)


def is_four(row, image):
    """The result is a texel of four components."""
    return row.component(row.r) is not None and row.count(row.r) == 4 and row.is_texel(image, row.r)


def is_fetched(row):
    """A texel that is fetched from an image that is sampled."""
    image = row.image()
    if image is None or image.dim == CUBE or image.sampled != 1 or not row.is_coordinate(image, row.p, (INT,)):
        return False
    return is_four(row, image) and row.has_image_operands(image, row.r, 2)


def is_read(row):
    """A texel that is read from, or written to, an image that is not sampled."""
    image = row.image()
    is_write = row.inst.opcode == 99
    texel = row.q if is_write else row.r
    if image is None or image.sampled not in (0, 2) or not row.is_coordinate(image, row.p, (INT,)):
        return False
    return row.is_texel(image, texel) and row.has_image_operands(image, texel, 3 if is_write else 2)


def has_size(row):
    """The size of an image, of one of its levels (103) or of the only one (104)."""
    image = row.image()
    if image is None or image.extent is None or not row.is_of((INT,), row.r) or row.count(row.r) != image.extent:
        return False
    if row.inst.opcode == 103:
        return image.dim <= 3 and image.is_multiple == 0 and row.is_form(row.p, INT)
    return image.dim in (4, 5) or image.is_multiple == 1 or image.sampled in (0, 2)


def is_cast(row):
    """A pointer of the class that is named, from one of class Generic to what both point to."""
    (one, pointed), (other, made) = row.pointer(row.o), row.pointer(row.r)
    return one == GENERIC and other == row.kinds["StorageClass"] and other in (4, 5, 7) and pointed == made


def is_copied(row):
    """Elements that a group copies between its memory and the global one."""
    (one, pointed), (other, made) = row.pointer(row.o), row.pointer(row.p)
    are_alike = sorted((one or 0, other or 0)) == [WORKGROUP, CROSS_WORKGROUP] and pointed == made
    is_number, is_event = row.is_of((INT, FLOAT), pointed), row.tags[4] == row.r and row.is_form(row.r, EVENT)
    return are_alike and is_number and is_event and row.is_size(row.q, row.fourth)


def is_pair(row):
    """A struct of two results."""
    is_alike = row.o == row.p and row.is_of((INT,), row.o)
    return is_alike and row.is_form(row.r, STRUCT) and row.types.rest(row.r) == [row.o, row.o]


def is_reserved(row):
    """A packet of a reservation."""
    is_given = row.is_pipe(277) and row.is_form(row.p, RESERVE_ID) and row.is_pointer(row.fourth, GENERIC)
    return is_given and row.are_int32(row.r, row.q, *row.tags[4:])


def is_marked(row):
    """A marker of a queue."""
    is_given = row.is_form(row.o, QUEUE) and row.are_int32(row.r, row.p)
    return is_given and row.points_to(DEVICE_EVENT, row.q, row.fourth)


def is_enqueued(row):
    """A kernel that a queue is given."""
    is_queue = row.is_form(row.o, QUEUE) and row.are_int32(row.r, row.p, row.fourth) and row.is_range(row.q)
    has_events = row.points_to(DEVICE_EVENT, *row.tags[4:6])
    return is_queue and has_events and row.is_block(6) and row.has_locals(9)


def is_built(row):
    """The range of an enqueued kernel."""
    is_given = row.is_size(row.o) or row.is_sizes(row.o, (2, 3))
    return row.is_range_struct(row.r) and row.o == row.p == row.q and is_given


def alike(row, scalars):
    """The result has the type of the first value."""
    return row.r == row.o and row.is_of(scalars, row.r)


def tested(row, scalars, *others):
    """The result is a bool for each component."""
    is_counted = row.is_of((BOOL,), row.r) and row.count(row.r) == row.count(row.o)
    return is_counted and row.is_of(scalars, row.o) and all(it == row.o for it in others)


ANY = (INT, FLOAT, BOOL)
OF_OPCODES = (
    ("12", is_extended),
    ("60", is_pointed_at),
    ("69", lambda it: it.is_pointer(it.o, GENERIC) and it.are_int32(it.r)),
    ("74", groups),
    ("75", groups_members),
    ("86", is_joined),
    ("88", is_sampled),
    ("95", is_fetched),
    ("98 99", is_read),
    ("100", lambda it: it.is_form(it.o, SAMPLED_IMAGE) and it.types.rest(it.o) == [it.r]),
    ("101 102", lambda it: it.image() and it.is_form(it.r, INT)),
    ("103 104", has_size),
    ("106", lambda it: it.image() and it.image().dim <= 3 and it.is_form(it.r, INT)),
    ("107", lambda it: it.image() and it.image().dim == 1 and it.image().is_multiple == 1 and it.is_form(it.r, INT)),
    ("116", lambda it: alike(it, (FLOAT,)) and it.types.shape(it.r)[1] == 32),
    ("118 119 205", lambda it: it.is_of((INT,), it.o) and it.is_of((INT,), it.r) and it.count(it.o) == it.count(it.r)),
    ("123", is_cast),
    ("142", lambda it: alike(it, (FLOAT,)) and it.is_form(it.r, VECTOR) and it.p == it.component(it.r)),
    ("148", is_product),
    ("149-152", is_pair),
    ("154 155", lambda it: it.is_form(it.o, VECTOR) and it.is_of((BOOL,), it.o) and it.is_form(it.r, BOOL)),
    ("156-160", lambda it: tested(it, (FLOAT,))),
    ("161-163", lambda it: tested(it, (FLOAT,), it.p)),
    ("201", lambda it: alike(it, (INT,)) and it.p == it.r and it.are_form(INT, it.q, it.fourth)),
    ("202 203", lambda it: alike(it, (INT,)) and it.are_form(INT, it.p, it.q)),
    ("204", lambda it: alike(it, (INT,))),
    ("259", is_copied),
    ("260", lambda it: it.are_int32(it.o) and it.points_to(EVENT, it.p)),
    ("261 262 334 335", lambda it: it.r == it.o and it.is_form(it.r, BOOL)),
    ("263", lambda it: alike(it, ANY) and it.is_of((INT,), it.p) and it.count(it.p) <= 3),
    ("264 267 268 270 271", lambda it: alike(it, (INT,)) and it.is_scan()),
    ("265 266 269", lambda it: alike(it, (FLOAT,)) and it.is_scan()),
    ("274 275", lambda it: it.is_pipe(275) and it.is_pointer(it.p, GENERIC) and it.are_int32(it.r, it.q, it.fourth)),
    ("276 277", is_reserved),
    ("278 279", lambda it: it.is_pipe(279) and it.is_form(it.r, RESERVE_ID) and it.are_int32(it.p, it.q, it.fourth)),
    ("280 281", lambda it: it.is_pipe(281) and it.is_form(it.p, RESERVE_ID) and it.are_int32(it.q, it.fourth)),
    ("282", lambda it: it.is_form(it.o, RESERVE_ID) and it.is_form(it.r, BOOL)),
    ("283 284", lambda it: it.is_form(it.o, PIPE) and it.are_int32(it.r, it.p, it.q)),
    ("285 286", lambda it: it.is_pipe(286) and it.is_form(it.r, RESERVE_ID) and it.are_int32(it.p, it.q, it.fourth)),
    ("287 288", lambda it: it.is_pipe(288) and it.is_form(it.p, RESERVE_ID) and it.are_int32(it.q, it.fourth)),
    ("291", is_marked),
    ("292", is_enqueued),
    ("293 294", lambda it: it.is_range(it.o) and it.are_int32(it.r) and it.is_block(1)),
    ("295 296 326", lambda it: it.are_int32(it.r) and it.is_block(0)),
    ("297 298", lambda it: it.is_form(it.o, DEVICE_EVENT)),
    ("299", lambda it: it.is_form(it.r, DEVICE_EVENT)),
    ("300", lambda it: it.is_form(it.o, DEVICE_EVENT) and it.is_form(it.r, BOOL)),
    ("301", lambda it: it.is_form(it.o, DEVICE_EVENT) and it.are_int32(it.p)),
    ("302", lambda it: it.is_form(it.o, DEVICE_EVENT) and it.are_int32(it.p) and it.is_pointer(it.q, CROSS_WORKGROUP)),
    ("303", lambda it: it.is_form(it.r, QUEUE)),
    ("304", is_built),
    ("318", lambda it: it.are_int32(it.pointer(it.o)[1]) and it.is_form(it.r, BOOL)),
    ("319", lambda it: it.are_int32(it.pointer(it.o)[1])),
    ("321", lambda it: it.types.is_plain(it.pointer(it.o)[1]) and it.are_int32(it.r)),
    ("324", lambda it: it.is_form(it.o, PIPE_STORAGE) and it.is_form(it.r, PIPE)),
    ("325", lambda it: it.are_int32(it.r, it.o) and it.is_block(1)),
    ("328", lambda it: it.are_int32(it.o) and it.is_form(it.r, NAMED_BARRIER)),
    ("329", lambda it: it.is_form(it.o, NAMED_BARRIER)),
    ("331", takes_ints),
    ("332", takes_ids),
    ("333", lambda it: it.is_form(it.r, BOOL)),
    ("336", lambda it: it.is_of(ANY, it.o) and it.is_form(it.r, BOOL)),
    ("337 345-348 365", lambda it: alike(it, ANY) and it.is_form(it.p, INT)),
    ("338", lambda it: alike(it, ANY)),
    ("339", lambda it: it.is_form(it.o, BOOL) and it.is_ballot(it.r)),
    ("340", lambda it: it.is_ballot(it.o) and it.is_form(it.r, BOOL)),
    ("341", lambda it: it.is_ballot(it.o) and it.is_form(it.p, INT) and it.is_form(it.r, BOOL)),
    ("342", lambda it: it.is_ballot(it.o) and it.is_form(it.r, INT) and it.is_scan()),
    ("343 344", lambda it: it.is_ballot(it.o) and it.is_form(it.r, INT)),
    ("349 351 353 354 356 357 359-361", lambda it: alike(it, (INT,)) and it.is_cluster()),
    ("350 352 355 358", lambda it: alike(it, (FLOAT,)) and it.is_cluster()),
    ("362-364", lambda it: alike(it, (BOOL,)) and it.is_cluster()),
    ("366", lambda it: alike(it, ANY) and it.is_form(it.p, INT) and it.is_constant(it.ids[1])),
    ("400", lambda it: it.o != it.r and matches(it.types, it.o, it.r)),
    ("401 402", lambda it: it.o == it.p and it.is_form(it.o, POINTER) and it.is_form(it.r, BOOL)),
    ("403", lambda it: it.o == it.p and it.is_form(it.o, POINTER) and it.is_form(it.r, INT)),
    ("4450-4452", Row.is_dot),
    ("4453-4455", lambda it: it.is_dot() and it.q == it.r),
    ("5632 5633", takes_texts),
)
ROWS = {code: holds for codes, holds in OF_OPCODES for code in opcodes_in(codes)}


def is_row(types, number, inst, words):
    """Y5 of an instruction, each of whose operands stands for a word of its shape."""
    row = Row(types, number, inst, words)
    return row.are_int32(*(types.type_of(it) for it in row.orders)) and bool(ROWS[inst.opcode](row))
