"""Roles, capabilities and types: rules Y1, C1, C2, M1, E1, E2 and Y2 to Y8.

What `--opencl` adds to the tables of types and operations is in objects.py.
"""

from functools import cached_property, partial

from . import objects
from .decode import Broken
from .forms import (
    ARRAY,
    BOOL,
    CONSTANTS,
    DATA,
    FLOAT,
    FUNCTION,
    INT,
    NULLABLE,
    OPAQUE,
    PLAIN,
    POINTER,
    SCALARS,
    SPECIAL,
    STRUCT,
    TYPES,
    UNLIKE,
    VECTOR,
    VOID,
)
from .order import SHAPE_OF, opcodes_in, taken, uses

NEEDED = {(INT, 16): (22,), (INT, 64): (11,), (FLOAT, 64): (10,), (FLOAT, 16): (8, 9)}


class Types:
    """The module's definitions as types and values."""

    def __init__(self, grammar, insts, definitions, places):
        self.grammar, self.insts, self.places = grammar, insts, places
        self.definitions = definitions
        self.implied = self.closed()
        self.number_of_linkage = self.kind("LinkageType")

    def kind(self, name):
        return name if name in self.grammar.kinds else None

    def definition(self, of):
        number = self.definitions.get(of)
        return None if number is None else self.insts[number]

    def form(self, of):
        found = self.definition(of)
        return found.opcode if found and found.opcode in TYPES else None

    def rest(self, of):
        """What the operands of a type's declaration hold after its result."""
        return [it[1] if it[0] != "Value" else it[2] for it in self.definition(of).operands[1:]]

    def type_of(self, value):
        found = self.definition(value)
        return found.type if found else None

    def is_data(self, of):
        return self.form(of) in DATA

    def is_plain(self, of):
        return self.form(of) in PLAIN

    @cached_property
    def nullable(self):
        """The types of which there is a null constant. By their order: a part that is declared later is a pointer."""
        found = set()
        for number, inst in enumerate(self.insts):
            of = inst.result
            if of is None or self.definitions[of] != number or self.form(of) not in DATA:
                continue
            parts = self.rest(of)[:1] if inst.opcode == ARRAY else self.rest(of) if inst.opcode == STRUCT else []
            if inst.opcode in NULLABLE and all(it in found or self.definitions[it] > number for it in parts):
                found.add(of)
        return found

    def shape(self, of):
        """The opcode of the scalar, its width, and how many; of bool the width is 0."""
        form = self.form(of)
        if form == VECTOR:
            inner, count = self.rest(of)
            scalar, width, one = self.shape(inner)
            return scalar, width, count if one == 1 and scalar else None
        if form in SCALARS:
            return form, 0 if form == BOOL else self.rest(of)[0], 1
        return None, None, None

    def is_of(self, scalar, of):
        return self.shape(of)[0] == scalar

    def count(self, of):
        return self.shape(of)[2]

    def pointer(self, of):
        """The storage class and the type pointed to."""
        return self.rest(of) if self.form(of) == POINTER else (None, None)

    def parts(self, of):
        """How many parts a type has, and the type of one of them."""
        form = self.form(of)
        if form == VECTOR:
            inner, count = self.rest(of)
            return count, lambda _: inner
        if form == ARRAY:
            inner, length = self.rest(of)
            return self.value(length), lambda _: inner
        if form == STRUCT:
            members = self.rest(of)
            return len(members), members.__getitem__
        return 0, None

    def value(self, of):
        """The value of a constant, as far as it is a number."""
        number = self.definition(of).operands[2]
        return number[1] + (number[2] << 32)

    def closed(self):
        """The implied capabilities."""
        kinds = self.grammar.enumerants.get("Capability", {})
        names = self.names = self.grammar.value_of.get("Capability", {})
        found = {it.operands[0][2] for it in self.insts if it.opcode == 17}
        while True:
            more = {names[name] for it in found for name in kinds.get(it, {}).get("capabilities", ()) if name in names}
            if more <= found:
                return found
            found |= more

    def is_covered(self, listed):
        return not listed or any(self.names.get(name) in self.implied for name in listed if name in self.names)


def plays(types, role, of):
    found = types.definition(of)
    number = types.definitions.get(of)
    return {
        "type": found.opcode in TYPES,
        "value": found.type is not None and found.opcode != 54,
        "function": found.opcode == 54,
        "string": found.opcode == 7,
        "set": found.opcode == 11,
        "global": found.opcode == 59 and types.places.function[number] is None,
    }.get(role, True)


def is_capable(types, inst):
    """C2."""
    grammar = types.grammar
    listed = [grammar.entries[inst.opcode].get("capabilities", ())]
    for sort, *what in inst.operands:
        if sort in ("Value", "Mask") and what[0] != "Capability":
            values = [what[1]] if sort == "Value" else [1 << bit for bit in range(32) if what[1] >> bit & 1]
            listed += [grammar.enumerants[what[0]][it].get("capabilities", ()) for it in values]
    needed = ()
    if inst.opcode in (INT, FLOAT):
        needed = NEEDED.get((inst.opcode, inst.operands[1][1]), ())
    if inst.opcode == VECTOR and inst.operands[2][1] in (8, 16):
        needed = (7,)
    if not all(it in types.implied for it in objects.needed(inst)):
        return False
    return all(map(types.is_covered, listed)) and (not needed or any(it in types.implied for it in needed))


def is_entry_sound(types, number, inst):
    """E2."""
    insts = types.insts
    if inst.opcode == 15:
        function = inst.operands[1][1]
        at = types.definitions[function]
        called = any(it.opcode == 57 and it.operands[2][1] == function for it in insts)
        return inst.operands[0][2] == 6 and is_defined(types, at) and types.form(insts[at].type) == VOID and not called
    if inst.opcode in (16, 331):
        return any(it.opcode == 15 and it.operands[1][1] == inst.operands[0][1] for it in insts)
    if inst.opcode == 54:
        imported = any(it.opcode == 71 and it.operands[0][1] == inst.result and is_import(it) for it in insts)
        return imported != is_defined(types, number)
    return True


def is_import(inst):
    operands = inst.operands
    return (
        operands[1][2] == 41
        and len(operands) > 3
        and operands[2][0] == "Text"
        and operands[3] == ("Value", "LinkageType", 1)
    )


def is_defined(types, at):
    while types.insts[at].opcode not in (248, 56):
        at += 1
    return types.insts[at].opcode == 248


def is_declaration_sound(types, number, inst):
    """Y2."""
    if inst.opcode == 39:
        of, (_, _, kind) = inst.operands[0][1], inst.operands[1]
        return types.form(of) == POINTER and types.definitions[of] > number and types.pointer(of)[0] == kind
    if inst.opcode in objects.DECLARED:
        return objects.DECLARED[inst.opcode](types, types.rest(inst.result))
    rest = types.rest(inst.result) if inst.opcode in (INT, FLOAT, VECTOR, ARRAY, STRUCT, POINTER, FUNCTION) else []
    if inst.opcode == INT:
        return rest[0] in (8, 16, 32, 64) and rest[1] == 0
    if inst.opcode == FLOAT:
        return rest[0] in (16, 32, 64)
    if inst.opcode == VECTOR:
        return types.form(rest[0]) in SCALARS and rest[1] in (2, 3, 4, 8, 16)
    if inst.opcode == ARRAY:
        length = types.definition(rest[1])
        is_number = length.opcode in (43, 50) and types.form(length.type) == INT
        return types.is_data(rest[0]) and is_number and types.value(rest[1]) >= 1
    if inst.opcode == STRUCT:
        return all(map(types.is_data, rest))
    if inst.opcode == POINTER:
        return types.is_data(rest[1]) or types.form(rest[1]) == OPAQUE
    if inst.opcode == FUNCTION:
        return (types.form(rest[0]) == VOID or types.is_data(rest[0])) and all(map(types.is_data, rest[1:]))
    return True


def is_constant_sound(types, inst):
    """Y4."""
    of = inst.type
    if inst.opcode in (41, 42, 48, 49):
        return types.form(of) == BOOL
    if inst.opcode in (43, 50):
        if types.form(of) not in (INT, FLOAT):
            return False
        width = types.rest(of)[0]
        return width >= 32 or inst.operands[2][1] >> width == 0
    if inst.opcode == 46:
        return of in types.nullable
    if inst.opcode in objects.CONSTANT:
        return objects.CONSTANT[inst.opcode](types, inst)
    if inst.opcode in (44, 51):
        given = [it[1] for it in inst.operands[2:]]
        count, part = types.parts(of)
        allowed = (1, *CONSTANTS, *(SPECIAL if inst.opcode == 51 else ()))
        return part is not None and len(given) == count and all(
            types.definition(it).opcode in allowed and types.type_of(it) == part(at) for at, it in enumerate(given)
        )
    return True


def function_of(types, number):
    return types.insts[types.places.function[number]]


def parameters_of(types, at):
    found = []
    at += 1
    while types.insts[at].opcode in (55, 8, 317):
        if types.insts[at].opcode == 55:
            found.append(at)
        at += 1
    return found


def is_function_sound(types, number, inst):
    """Y6."""
    if inst.opcode == 54:
        signature = inst.operands[-1][1]
        if types.form(signature) != FUNCTION:
            return False
        rest = types.rest(signature)
        return rest[0] == inst.type and len(rest) - 1 == len(parameters_of(types, number))
    if inst.opcode == 55:
        at = types.places.function[number]
        rest = types.rest(types.insts[at].operands[-1][1])
        return rest[1 + parameters_of(types, at).index(number)] == inst.type
    return True


def is_return_sound(types, number, inst):
    """Y7."""
    if inst.opcode == 253:
        return types.form(function_of(types, number).type) == VOID
    if inst.opcode == 254:
        return types.type_of(inst.operands[0][1]) == function_of(types, number).type
    return True


def is_call_sound(types, inst):
    """Y8."""
    if inst.opcode != 57:
        return True
    signature = types.definition(inst.operands[2][1]).operands[-1][1]
    given = [inst.type, *(types.type_of(it[1]) for it in inst.operands[3:])]
    return types.form(signature) == FUNCTION and types.rest(signature) == given


def reach(types, of, indexes, is_index_sound):
    """The type that indexes reach, None where they reach none."""
    for index in indexes:
        count, part = types.parts(of)
        if part is None or not is_index_sound(types, of, index, count):
            return None
        known = types.value(index[1]) if index[0] == "Id" and types.form(of) == STRUCT else index[1]
        of = part(known if types.form(of) == STRUCT else 0)
    return of


def is_literal_sound(types, of, index, count):
    return index[1] < count


def is_value_sound(types, of, index, count):
    if types.form(types.type_of(index[1])) != INT:
        return False
    if types.form(of) != STRUCT:
        return True
    return types.definition(index[1]).opcode == 43 and types.value(index[1]) < count


def chain(types, inst, skipped):
    base, *indexes = inst.operands[2:]
    kind, pointed = types.pointer(types.type_of(base[1]))
    if kind is None or any(types.form(types.type_of(it[1])) != INT for it in indexes):
        return False
    reached = reach(types, pointed, indexes[skipped:], is_value_sound)
    return reached is not None and types.pointer(inst.type) == [kind, reached]


def variable(types, number, inst):
    kind, pointed = types.pointer(inst.type)
    is_inside = types.places.function[number] is not None
    named = inst.operands[2][2]
    if kind is None or kind != named or (named != 7 if is_inside else named in (7, 8)):
        return False
    if len(inst.operands) == 3:
        return True
    value = inst.operands[3][1]
    found, at = types.definition(value), types.definitions[value]
    is_global = found.opcode == 59 and types.places.function[at] is None
    return (found.opcode in CONSTANTS + SPECIAL or is_global) and found.type == pointed


def constructed(types, inst):
    given = [types.type_of(it[1]) for it in inst.operands[2:]]
    count, part = types.parts(inst.type)
    if types.form(inst.type) in (STRUCT, ARRAY):
        return len(given) == count and all(part(at) == it for at, it in enumerate(given))
    if types.form(inst.type) != VECTOR or len(given) < 2:
        return False
    inner = part(0)
    are_parts = all(it == inner or types.form(it) == VECTOR and types.rest(it)[0] == inner for it in given)
    return are_parts and sum(1 if it == inner else types.parts(it)[0] for it in given) == count


def is_atomic_sound(types, inst, tags):
    code, r = inst.opcode, inst.type
    ids = [it[1] for it in inst.operands if it[0] == "Id"]
    exchanges = code in (230, 231)
    orders = ids[1:4] if exchanges else ids[1:3]
    if any(types.form(types.type_of(it)) != INT or types.rest(types.type_of(it))[0] != 32 for it in orders):
        return False
    pointed = types.pointer(tags[0])[1]
    last = tags[-1]
    if code == 228:
        return pointed is not None and pointed == last and types.form(last) in (INT, FLOAT)
    if pointed is None or pointed != r or types.form(r) not in ((INT, FLOAT) if code in (227, 229) else (INT,)):
        return False
    return code in (227, 232, 233) or last == r and (not exchanges or tags[-2] == r)


def same(types, scalar, inst, tags):
    return types.is_of(scalar, inst.type) and all(it == inst.type for it in tags)


def compared(types, scalar, inst, tags):
    are_like = types.is_of(scalar, tags[0]) and tags[0] == tags[1]
    return are_like and types.is_of(BOOL, inst.type) and types.count(inst.type) == types.count(tags[0])


def converted(types, given, made, inst, tags, other=False):
    old, new = types.shape(tags[0]), types.shape(inst.type)
    return old[0] == given and new[0] == made and old[2] == new[2] and (not other or old[1] != new[1])


def cast(types, inst, tags):
    old, new = types.shape(tags[0]), types.shape(inst.type)
    if old[0] in (INT, FLOAT) and new[0] in (INT, FLOAT):
        return old[1] * old[2] == new[1] * new[2]
    kinds = types.pointer(tags[0])[0], types.pointer(inst.type)[0]
    return None not in kinds and kinds[0] == kinds[1]


def generic(types, inst, tags, is_back):
    one, other = types.pointer(tags[0]), types.pointer(inst.type)
    if is_back:
        one, other = other, one
    return one[0] in (4, 5, 7) and other[0] == 8 and one[1] == other[1]


def selected(types, inst, tags):
    if not (tags[1] == tags[2] == inst.type and types.is_plain(inst.type)):
        return False
    is_wide = types.form(inst.type) == VECTOR and types.form(tags[0]) == VECTOR and types.is_of(BOOL, tags[0])
    return types.form(tags[0]) == BOOL or is_wide and types.parts(tags[0])[0] == types.parts(inst.type)[0]


def shuffled(types, inst, tags):
    forms = [types.form(it) for it in (inst.type, *tags)]
    if forms != [VECTOR] * 3:
        return False
    (inner, count), one, two = types.rest(inst.type), types.rest(tags[0]), types.rest(tags[1])
    literals = [it[1] for it in inst.operands if it[0] == "Word"]
    limit = one[1] + two[1]
    are_within = all(it < limit or it == 0xFFFFFFFF for it in literals)
    return inner == one[0] == two[0] and len(literals) == count and are_within


def shifted(types, inst, tags):
    if tags[0] != inst.type or not types.is_of(INT, inst.type):
        return False
    return types.is_of(INT, tags[1]) and types.count(tags[1]) == types.count(inst.type)


def extracted(types, inst, tags, composite):
    indexes = [it for it in inst.operands if it[0] == "Word"]
    return bool(indexes) and reach(types, composite, indexes, is_literal_sound)


def dynamic(types, inst, tags, vector, component):
    return types.form(vector) == VECTOR and types.rest(vector)[0] == component and types.form(tags[-1]) == INT


def is_typed(types, number, inst):
    """Y5."""
    code, r = inst.opcode, inst.type
    tags = [types.type_of(it) for it, role in uses(inst) if role == "value"]
    if code in ROWS:
        return ROWS[code](types, inst, tags)
    if code == 59:
        return variable(types, number, inst)
    if code in objects.ROWS:
        return objects.is_row(types, number, inst, taken(SHAPE_OF[code], inst.operands))
    return True


def rows():
    def pointed(types, of):
        return types.pointer(of)[1]

    def by(codes, what):
        found.update({code: what for code in opcodes_in(codes)})

    found = {}
    by("1", lambda t, i, o: t.is_data(i.type))
    by("61", lambda t, i, o: pointed(t, o[0]) == i.type and t.is_data(i.type))
    by("62", lambda t, i, o: pointed(t, o[0]) == o[1])
    by("63", lambda t, i, o: pointed(t, o[0]) is not None and pointed(t, o[0]) == pointed(t, o[1]))
    by("64", lambda t, i, o: all(t.form(it) == POINTER for it in o[:2]) and t.form(o[2]) == INT)
    by("65 66", lambda t, i, o: chain(t, i, 0))
    by("67 70", lambda t, i, o: chain(t, i, 1))
    by("77", lambda t, i, o: dynamic(t, i, o, o[0], i.type))
    by("78", lambda t, i, o: i.type == o[0] and dynamic(t, i, o, o[0], o[1]))
    by("79", shuffled)
    by("80", lambda t, i, o: constructed(t, i))
    by("81", lambda t, i, o: extracted(t, i, o, o[0]) == i.type)
    by("82", lambda t, i, o: i.type == o[1] and extracted(t, i, o, o[1]) == o[0])
    by("83", lambda t, i, o: i.type == o[0] and t.is_data(i.type))
    by("109 110", lambda t, i, o: converted(t, FLOAT, INT, i, o))
    by("111 112", lambda t, i, o: converted(t, INT, FLOAT, i, o))
    by("113 114", lambda t, i, o: converted(t, INT, INT, i, o, True))
    by("115", lambda t, i, o: converted(t, FLOAT, FLOAT, i, o, True))
    by("117", lambda t, i, o: t.form(o[0]) == POINTER and t.form(i.type) == INT)
    by("120", lambda t, i, o: t.form(o[0]) == INT and t.form(i.type) == POINTER)
    by("121", lambda t, i, o: generic(t, i, o, False))
    by("122", lambda t, i, o: generic(t, i, o, True))
    by("124", cast)
    by("126 200 128 130 132 134 135 137-139 197-199", lambda t, i, o: same(t, INT, i, o))
    by("127 129 131 133 136 140 141", lambda t, i, o: same(t, FLOAT, i, o))
    by("164-168", lambda t, i, o: same(t, BOOL, i, o))
    by("169", selected)
    by("170-179", lambda t, i, o: compared(t, INT, i, o))
    by("180-191", lambda t, i, o: compared(t, FLOAT, i, o))
    by("194-196", shifted)
    by("224 225", lambda t, i, o: all(t.form(it) == INT and t.rest(it)[0] == 32 for it in o))
    by("227-242", is_atomic_sound)
    by("245", lambda t, i, o: t.is_data(i.type) and all(it == i.type for it in o))
    by("250", lambda t, i, o: t.form(o[0]) == BOOL and len(i.operands) in (3, 5))
    by("251", lambda t, i, o: t.form(o[0]) == INT)
    by("256 257", lambda t, i, o: t.pointer(o[0])[0] == 7)
    return found


ROWS = rows()

# Of each opcode its conditions that are told by themselves: a seat and those that there are at it (conditions.py says
# what both are). `:` names the type that is wanted: a seat, `*` what it points to, the part at the operand's place, the
# component type of the result type, or the type that indexes lead to. `+` is each value operand that is not named,
# `type` each type, and `word` each literal.
SAME = "o=Same:r p=Same:r q=Same:r"
ATOMIC = "+=Int32 o=Pointer,PointsTo:r r=Same:*o"
RULES = (
    ("1", "r=Data"),
    ("59", "r=Pointer 2=StorageClass,ClassHere o=Initializer,InitializerType:*r"),
    ("61", "r=Data,Same:*o o=Pointer,PointsTo:r"),
    ("62", "o=Pointer,PointsTo:p p=Same:*o"),
    ("63", "o=Pointer,PointsTo:*p,SamePointee:p p=Pointer,PointsTo:*o,SamePointee:o"),
    ("64", "o=Pointer p=Pointer q=Int"),
    ("65-67 70", "o=Pointer r=Pointer,SameClass:o,Leads:led +=Int,Chosen"),
    ("77", "o=VectorOf:r p=Int r=ComponentOf:o"),
    ("78", "r=VectorOf:p,Same:o o=VectorOf:p,Same:r p=ComponentOf:r,ComponentOf:o q=Int"),
    ("79", "o=Vector p=SameComponent:o r=SameComponent:o,ComponentCount word=Component"),
    ("80", "r=Composite,Several,Filled,Count +=Share:component,Part:part"),
    ("81", "r=Reached:reached word=Within"),
    ("82", "p=Same:r o=Reached:reached word=Within"),
    ("83", "r=Data o=Same:r"),
    ("109 110", "o=Floats,SameCount:r r=Ints,SameCount:o"),
    ("111 112", "o=Ints,SameCount:r r=Floats,SameCount:o"),
    ("113 114", "o=Ints,SameCount:r,OtherWidth:r r=Ints,SameCount:o,OtherWidth:o"),
    ("115", "o=Floats,SameCount:r,OtherWidth:r r=Floats,SameCount:o,OtherWidth:o"),
    ("117", "o=Pointer r=Int"),
    ("120", "o=Int r=Pointer"),
    ("121", "o=NamedPointer,SamePointee:r,PointsTo:*r r=GenericPointer,SamePointee:o,PointsTo:*o"),
    ("122", "o=GenericPointer,SamePointee:r,PointsTo:*r r=NamedPointer,SamePointee:o,PointsTo:*o"),
    ("124", "o=SameBits:r r=SameBits:o"),
    ("126 200 128 130 132 134 135 137-139 197-199", f"r=Ints {SAME}"),
    ("127 129 131 133 136 140 141", f"r=Floats {SAME}"),
    ("164-168", f"r=Bools {SAME}"),
    ("169", "r=Data o=Chooses:r p=Same:r q=Same:r"),
    ("170-179", "o=Ints,SameCount:r p=Same:o r=Bools,SameCount:o"),
    ("180-191", "o=Floats,SameCount:r p=Same:o r=Bools,SameCount:o"),
    ("194-196", "r=Ints o=Same:r p=Ints,SameCount:r"),
    ("224 225", "o=Int32 p=Int32 q=Int32"),
    ("227", f"r=Number {ATOMIC}"),
    ("228", "o=Pointer,PointsTo:s +=Int32 s=Number,Same:*o"),
    ("229", f"r=Number s=Same:r {ATOMIC}"),
    ("230", f"r=Int s=Int32 t=Same:r u=Same:r {ATOMIC}"),
    ("232 233", f"r=Int {ATOMIC}"),
    ("234-242", f"r=Int s=Same:r {ATOMIC}"),
    ("245", "r=Data +=Same:r"),
    ("250", "o=Bool 3=Weights"),
    ("251", "o=Int"),
    ("256 257", "o=FunctionPointer"),
    ("21", "1=IntWidth 2=Signedness"),
    ("22", "1=FloatWidth"),
    ("23", "1=Scalar 2=VectorCount"),
    ("28", "1=Data o=Length"),
    ("30", "type=Data"),
    ("32", "2=Pointee"),
    ("33", "1=Returned type=Data"),
    ("39", "0=Forward"),
    ("41 42 48 49", "r=Bool"),
    ("43 50", "r=Number 2=FitsWidth"),
    ("44 51", "r=Count +=Constituent:part"),
    ("46", "r=Data"),
)


def rules(types, number, inst, earlier):
    """The rules at an instruction in their order, each with whether it is unbroken."""
    if inst.opcode == 14:
        yield "C1", lambda: 6 in types.implied and 1 not in types.implied
    yield "C2", partial(is_capable, types, inst)
    if inst.opcode == 14:
        yield "M1", lambda: inst.operands[0][2] in (1, 2) and inst.operands[1][2] == 2
        yield "E1", lambda: 5 in types.implied or any(it.opcode == 15 for it in types.insts)
    yield "E2", partial(is_entry_sound, types, number, inst)
    yield "Y2", partial(is_declaration_sound, types, number, inst)
    key = (inst.opcode, *(it for it in inst.operands if it[0] != "Result"))
    yield "Y3", lambda: inst.opcode not in UNLIKE or key not in earlier
    yield "Y4", partial(is_constant_sound, types, inst)
    yield "Y5", partial(is_typed, types, number, inst)
    yield "Y6", partial(is_function_sound, types, number, inst)
    yield "Y7", partial(is_return_sound, types, number, inst)
    yield "Y8", partial(is_call_sound, types, inst)
    earlier.add(key)


def check_types(grammar, insts, definitions, places):
    types = Types(grammar, insts, definitions, places)
    for number, inst in enumerate(insts):
        if not all(plays(types, role, of) for of, role in uses(inst)):
            raise Broken("Y1", number, inst.word)
    earlier = set()
    for number, inst in enumerate(insts):
        for rule, holds in rules(types, number, inst, earlier):
            if not holds():
                raise Broken(rule, number, inst.word)
    return types
