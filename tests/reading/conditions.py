"""The conditions of the table of types (Y2, Y4 and Y5): which there are at an instruction, and when one fails.

From docs/PROFILE.md. Which conditions there are of each opcode stands in types.py, in RULES. A condition is at a seat:
the result type (`r`), a value operand (`o`, `p`, `q` and on, by its place among these) or an operand that is no value
(its number). Where it compares types, those that it may want are named too. Each name is one of the page's table of
conditions.
"""

from . import object_conditions, owners
from .forms import ARRAY, BOOL, CONSTANTS, FLOAT, INT, OPAQUE, POINTER, SCALARS, SPECIAL, STRUCT, VECTOR, VOID
from .order import opcodes_in
from .types import RULES, cast, selected

LETTERS = "opqstuvwx"
# The seat of a condition that is reported at no operand.
NOWHERE = "-"


class Row:
    """The types at an instruction: its result type `r`, and the value operands with their numbers and types."""

    def __init__(self, facts, number):
        self.facts, self.types, self.number = facts, facts.types, number
        self.inst = facts.insts[number]
        self.r = self.inst.type
        used = facts.uses(number)
        self.seats = [(at, self.types.type_of(of)) for at, (of, role) in sorted(used.items()) if role == "value"]
        self.tags = [of for _, of in self.seats]

    def subject(self, at):
        """The type that is looked at: of the result type its own, of a value that of the value, of a type itself."""
        sort, of = self.inst.operands[at][:2]
        if sort == "Type":
            return of
        return next((tag for place, tag in self.seats if place == at), of if sort == "Id" else None)

    def seat(self, at):
        """The name of an operand's seat."""
        if self.inst.operands[at][0] == "Type":
            return "r"
        place = next((it for it, (number, _) in enumerate(self.seats) if number == at), None)
        return str(at) if place is None else LETTERS[place] if place < len(LETTERS) else "more"

    def pointee(self, of):
        return self.types.pointer(of)[1]

    def component(self, of):
        return self.types.rest(of)[0] if self.types.form(of) == VECTOR else None

    def near(self, of):
        """The types that a type is made of."""
        if self.types.form(of) is None:
            return []
        return [it for it in self.types.rest(of) if it in self.facts.first and self.types.form(it) is not None]

    def closure(self, begin):
        """Types, and all that they are made of."""
        found, todo = set(), [it for it in begin if it is not None]
        while todo:
            of = todo.pop()
            if of not in found:
                found.add(of)
                todo += self.near(of)
        return found


    def literals(self):
        """The literals of one word, in order."""
        return [it[1] for it in self.inst.operands if it[0] == "Word"]

    def reached(self, literals):
        """The type that literals reach as indexes, each that of a part, from the type of the composite; else None."""
        of = self.tags[-1]
        for it in literals:
            count, part = self.types.parts(of)
            if part is None or it >= count:
                return None
            of = part(it)
        return of

    def share(self, of):
        """How many components of the result type, a vector, a constituent of a type gives; None where it is no such
        one."""
        inner = self.component(self.r)
        if of == inner:
            return 1
        return self.types.rest(of)[1] if inner is not None and self.component(of) == inner else None

    def is_filled(self):
        """Whether the constituents give as many components as the result type, a vector, has."""
        shares = [self.share(it) for it in self.tags]
        return None not in shares and sum(shares) == self.types.rest(self.r)[1]


def is_length(types, of):
    """Whether an id is the length of an array."""
    length = types.definition(of)
    return length.opcode in (43, 50) and types.form(length.type) == INT and types.value(of) >= 1


def has_count(row):
    """Whether there are as many constituents as the type has parts."""
    count, part = row.types.parts(row.r)
    is_made = row.inst.opcode == 80 and row.types.form(row.r) == VECTOR
    return is_made or part is not None and len(row.inst.operands) - 2 == count


def is_constituent(row, at, part):
    """Whether a value may be a part of a constant: it is one of the instructions, and of the part's type."""
    found = row.types.definition(row.inst.operands[at][1])
    return found.opcode in (1, *CONSTANTS, *(SPECIAL if row.inst.opcode == 51 else ())) and found.type == part


def is_forward(row):
    """Whether a forward pointer names a pointer type of its storage class that comes later."""
    of, kind = row.inst.operands[0][1], row.inst.operands[1][2]
    return row.types.form(of) == POINTER and row.facts.first[of] > row.number and row.types.pointer(of)[0] == kind


def led(row, end):
    """The type that the indexes of an access chain lead to, those before operand `end`; None where they lead to
    none."""
    first = 3 if row.inst.opcode in (65, 66) else 4
    of = row.pointee(row.tags[0])
    for _, index in row.inst.operands[first:end]:
        count, part = row.types.parts(of)
        known = row.types.value(index) if row.types.definition(index).opcode == 43 else None
        if part is None or row.types.form(of) == STRUCT and (known is None or known >= count):
            return None
        of = part(known if row.types.form(of) == STRUCT else 0)
    return of


def is_class_here(row):
    """Whether a variable may have its storage class where it stands."""
    named = row.inst.operands[2][2]
    return named not in (7, 8) if row.types.places.function[row.number] is None else named == 7


def is_initializer(row):
    """Whether the initializer of a variable is a constant or a variable outside functions."""
    value = row.inst.operands[3][1]
    found, at = row.types.definition(value), row.types.definitions[value]
    return found.opcode in CONSTANTS + SPECIAL or found.opcode == 59 and row.types.places.function[at] is None


def fits(row):
    """Whether the bits of a number above its width are 0."""
    width = row.types.rest(row.r)[0]
    return width >= 32 or row.inst.operands[2][1] >> width == 0


def form(row, s, *forms):
    return row.types.form(s) in forms


def is_component(row, at):
    """Whether a literal is the number of a component of two vectors, or 4294967295."""
    sizes = [row.types.rest(it)[1] for it in row.tags if form(row, it, VECTOR)]
    return row.inst.operands[at][1] in (*range(sum(sizes)), 0xFFFFFFFF)


def is_within(row, at):
    """Whether a literal is the index of a part of the type that those before it lead to."""
    before = sum(it[0] == "Word" for it in row.inst.operands[:at])
    return row.reached(row.literals()[:before]) is None or row.reached(row.literals()[: before + 1]) is not None


# Of each condition whether it holds: of the row, the number of the operand, the type that is looked at, and the type
# that is wanted.
HOLDS = {
    "Int": lambda row, at, s, w: form(row, s, INT),
    "Int32": lambda row, at, s, w: form(row, s, INT) and row.types.rest(s)[0] == 32,
    "Number": lambda row, at, s, w: form(row, s, INT, FLOAT),
    "Bool": lambda row, at, s, w: form(row, s, BOOL),
    "Data": lambda row, at, s, w: row.types.is_data(s),
    "Ints": lambda row, at, s, w: row.types.is_of(INT, s),
    "Floats": lambda row, at, s, w: row.types.is_of(FLOAT, s),
    "Bools": lambda row, at, s, w: row.types.is_of(BOOL, s),
    "Same": lambda row, at, s, w: s == w,
    "SameCount": lambda row, at, s, w: row.types.count(s) == row.types.count(w),
    "OtherWidth": lambda row, at, s, w: row.types.shape(s)[1] != row.types.shape(w)[1],
    "SameBits": lambda row, at, s, w: cast(row.types, row.inst, row.tags),
    "Chooses": lambda row, at, s, w: selected(row.types, row.inst, [s, row.r, row.r]) or not row.types.is_data(row.r),
    "Pointer": lambda row, at, s, w: form(row, s, POINTER),
    "PointsTo": lambda row, at, s, w: row.pointee(s) == w,
    "SamePointee": lambda row, at, s, w: row.pointee(s) is not None and row.pointee(s) == row.pointee(w),
    "SameClass": lambda row, at, s, w: None is not row.types.pointer(s)[0] == row.types.pointer(w)[0],
    "FunctionPointer": lambda row, at, s, w: row.types.pointer(s)[0] == 7,
    "GenericPointer": lambda row, at, s, w: row.types.pointer(s)[0] == 8,
    "NamedPointer": lambda row, at, s, w: row.types.pointer(s)[0] in (4, 5, 7),
    "VectorOf": lambda row, at, s, w: row.component(s) == w,
    "ComponentOf": lambda row, at, s, w: row.component(w) == s,
    "Count": lambda row, at, s, w: has_count(row),
    "IntWidth": lambda row, at, s, w: row.inst.operands[at][1] in (8, 16, 32, 64),
    "Signedness": lambda row, at, s, w: row.inst.operands[at][1] == 0,
    "FloatWidth": lambda row, at, s, w: row.inst.operands[at][1] in (16, 32, 64),
    "Scalar": lambda row, at, s, w: form(row, s, *SCALARS),
    "VectorCount": lambda row, at, s, w: row.inst.operands[at][1] in (2, 3, 4, 8, 16),
    "Length": lambda row, at, s, w: is_length(row.types, row.inst.operands[at][1]),
    "Pointee": lambda row, at, s, w: row.types.is_data(s) or form(row, s, OPAQUE),
    "Returned": lambda row, at, s, w: row.types.is_data(s) or form(row, s, VOID),
    "Forward": lambda row, at, s, w: is_forward(row),
    "FitsWidth": lambda row, at, s, w: fits(row),
    "Constituent": lambda row, at, s, w: is_constituent(row, at, w),
    "Weights": lambda row, at, s, w: sum(it[0] == "Word" for it in row.inst.operands) in (0, 2),
    "StorageClass": lambda row, at, s, w: row.inst.operands[at][2] == row.types.pointer(row.r)[0],
    "ClassHere": lambda row, at, s, w: is_class_here(row),
    "Initializer": lambda row, at, s, w: is_initializer(row),
    "InitializerType": lambda row, at, s, w: s == w,
    "Chosen": lambda row, at, s, w: led(row, at + 1) is not None,
    "Leads": lambda row, at, s, w: w is not None and row.pointee(s) == w,
    "Vector": lambda row, at, s, w: form(row, s, VECTOR),
    "SameComponent": lambda row, at, s, w: row.component(s) is not None and row.component(s) == row.component(w),
    "ComponentCount": lambda row, at, s, w: form(row, s, VECTOR) and row.types.rest(s)[1] == len(row.literals()),
    "Component": lambda row, at, s, w: is_component(row, at),
    "Composite": lambda row, at, s, w: form(row, s, VECTOR, STRUCT, ARRAY),
    "Several": lambda row, at, s, w: not form(row, s, VECTOR) or len(row.tags) > 1,
    "Share": lambda row, at, s, w: not form(row, row.r, VECTOR) or row.share(s) is not None,
    "Filled": lambda row, at, s, w: not form(row, s, VECTOR) or row.is_filled(),
    "Part": lambda row, at, s, w: not form(row, row.r, STRUCT, ARRAY) or s == w,
    "Within": lambda row, at, s, w: is_within(row, at),
    "Reached": lambda row, at, s, w: s == w,
}

# The words of each condition that is reported, and its name here.
WORDS = {
    "its type is an int": "Int",
    "its type is an int of width 32": "Int32",
    "its type is an int or a float": "Number",
    "its type is bool": "Bool",
    "its type is a data type": "Data",
    "its type is an int or a vector of ints": "Ints",
    "its type is a float or a vector of floats": "Floats",
    "its type is bool or a vector of bools": "Bools",
    "its type is a pointer": "Pointer",
    "its type is a pointer of the storage class Function": "FunctionPointer",
    "its type is a pointer of the storage class Generic": "GenericPointer",
    "its type is a pointer of the storage class Workgroup, CrossWorkgroup or Function": "NamedPointer",
    "its type is the one that is wanted": "Same",
    "its type has as many components as the wanted one": "SameCount",
    "its type has components of another width than the wanted one": "OtherWidth",
    "its type has as many bits as the wanted one, or both are pointers of one storage class": "SameBits",
    "its type is bool, or a vector of as many bools as the wanted type, a vector, has components": "Chooses",
    "its type is a pointer to the wanted one": "PointsTo",
    "its type and the wanted one are pointers to one type": "SamePointee",
    "its type and the wanted one are pointers of one storage class": "SameClass",
    "its type is a vector of the wanted one": "VectorOf",
    "its type is the component type of the wanted one, a vector": "ComponentOf",
    "there are no weights, or two": "Weights",
    "the storage class is that of the pointer": "StorageClass",
    "in a function the storage class is Function, outside neither Function nor Generic": "ClassHere",
    "the initializer is a constant or a variable outside functions": "Initializer",
    "its type is the one that is pointed to": "InitializerType",
    "at a struct the index is an OpConstant, the number of a member; else the type before it has parts": "Chosen",
    "its type is a pointer to the one that the indexes lead to": "Leads",
    "the width is 8, 16, 32 or 64": "IntWidth",
    "the signedness is 0": "Signedness",
    "the width is 16, 32 or 64": "FloatWidth",
    "the component type is an int, a float or bool": "Scalar",
    "the count is 2, 3, 4, 8 or 16": "VectorCount",
    "the length is a constant of int type, 1 or more": "Length",
    "it is a data type or an opaque type": "Pointee",
    "it is a data type or void": "Returned",
    "it is a pointer of this storage class that is declared later": "Forward",
    "the number fits the width of its type": "FitsWidth",
    "there are as many constituents as the type has parts": "Count",
    "it is a constant or an OpUndef, of the type of the part at its place": "Constituent",
    "its type is a vector": "Vector",
    "its type is a vector of the same component type as the wanted one": "SameComponent",
    "its type has as many components as there are literals": "ComponentCount",
    "the literal is the number of a component of the two vectors, or 4294967295": "Component",
    "its type is a vector, a struct or an array": "Composite",
    "there are two constituents or more": "Several",
    "its type is the wanted one, or a vector of it": "Share",
    "the constituents have as many components together as its type, a vector": "Filled",
    "its type is that of the part at its place": "Part",
    "there is an index": "Indexes",
    "the index is that of a part of the type that the indexes before it lead to": "Within",
    "its type is the one that the indexes lead to": "Reached",
}
RELATIONS = (
    *("Same", "SameCount", "OtherWidth", "SameBits", "Chooses", "PointsTo", "SamePointee", "SameClass", "VectorOf"),
    *("ComponentOf", "InitializerType", "Leads", "SameComponent", "Share", "Part", "Reached"),
)
OWN_WORDS = tuple(WORDS)
WORDS.update({words: name for words, name in object_conditions.WORDS.items() if words not in WORDS})
HOLDS.update(object_conditions.HOLDS)
RELATIONS += object_conditions.RELATIONS
# Those that look at an id, and not at its type.
OF_IDS = ("Length", "Initializer", "Chosen", "Constant")

CONDITIONS = {}
for _codes, _seats in (*RULES, *object_conditions.RULES):
    for _code in opcodes_in(_codes):
        _known = CONDITIONS.setdefault(_code, {})
        for _seat, _names in (it.split("=") for it in _seats.split()):
            _known[_seat] = [*_known.get(_seat, []), *_names.split(",")]


def compares(words):
    """Whether a condition compares the type of an operand with another one."""
    return WORDS[words] in RELATIONS


def wanted_at(row, at, text):
    """The type that a condition of the table wants, None where it wants none."""
    if not text:
        return None
    if text == "part":
        count, part = row.types.parts(row.r)
        return part(at - 2) if part is not None and at - 2 < count else None
    if text == "led":
        return led(row, None)
    if text == "component":
        return row.component(row.r)
    if text == "reached":
        return row.reached(row.literals())
    letter = text.lstrip("*")
    of = row.r if letter == "r" else row.tags[LETTERS.index(letter)]
    return row.pointee(of) if letter != text else of


def seats_of(row, at):
    """The names of the table's seats at which an operand may be."""
    if at is None:
        return [NOWHERE]
    known, seat = CONDITIONS.get(row.inst.opcode, {}), row.seat(at)
    if seat in known:
        return [seat]
    if seat in (*LETTERS, "more"):
        return ["+"]
    return {"Id": ["type"], "Word": ["word"]}.get(row.inst.operands[at][0], [])


def fails(facts, number, words, at, wanted):
    """Whether a condition is one of those at an instruction, at an operand or none, and does not hold."""
    row, name = Row(facts, number), WORDS[words]
    if name == "Indexes":
        return at is None and row.inst.opcode in (81, 82) and not row.literals()
    subject = None if at is None else row.subject(at)
    for seat in seats_of(row, at):
        for each in CONDITIONS.get(row.inst.opcode, {}).get(seat, ()):
            known, _, text = each.partition(":")
            if known == name:
                due = wanted_at(row, at, text)
                if wanted in (None, due) and not HOLDS[name](row, at, subject, due):
                    return True
    return False


def types_at(facts, number):
    """The ids of all types that a condition at an instruction may read, the function type of a function among them."""
    row = Row(facts, number)
    own = [it[1] for it in row.inst.operands if it[0] in ("Id", "Type")]
    signatures = [owners.type_at(facts, it) for it in row.inst.operands if owners.is_function(facts, it)]
    return row.closure([row.r, *row.tags, *(it for it in [*own, *signatures] if row.types.form(it) is not None)])
