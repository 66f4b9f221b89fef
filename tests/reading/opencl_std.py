"""The types of the instructions of OpenCL.std: rule Y10.

From Khronos' OpenCL Extended Instruction Set Specification 1.00. The rule is asked after Y9, so that the set has an
instruction of the number, there are as many operands as it takes, and each id among them is a value.
"""

from functools import lru_cache

from .decode import Broken
from .extended import HEAD, OPENCL, called, imported
from .forms import FLOAT, INT, POINTER, VECTOR, VOID
from .order import opcodes_in

# The instructions of each class by their numbers, and the conditions of the class in the notation of conditions.py: a
# seat is the result type (`r`), an operand behind the number (`o`, `p`, `q`, `s`), `last`, or `+`, each that is not
# named. `:` names the type that is wanted, of another seat.
CLASSES = (
    ("F", "0-29 32 35 37-44 47 48 50 51 53 55-57 59-103", "r=Floats +=Same:r"),
    ("F4", "107 110", "r=Floats,UpTo4 +=Same:r"),
    ("F34", "104", "r=Floats,ThreeOrFour +=Same:r"),
    ("I", "141-163 166 201-204", "r=Ints +=Same:r"),
    ("I32", "167-170", "r=Ints,Width32 +=Same:r"),
    ("IF", "186", "r=Numbers +=Same:r"),
    ("length", "105 106 108 109", "r=Floats,Scalar o=Floats,ComponentOf:r,UpTo4 p=Same:o"),
    ("part", "30 45 58", "r=Floats o=Same:r p=Stored,PointsTo:r"),
    ("whole", "31 36 52", "r=Floats +=Same:r last=Stored,PointsToInts:r"),
    ("power", "34 49 54", "r=Floats o=Same:r p=Ints,Width32,SameCount:r"),
    ("ilogb", "33", "r=Ints,Width32 o=Floats,SameCount:r"),
    ("nan", "46", "r=Floats o=Ints,SameWidth:r,SameCount:r"),
    ("upsample", "164 165", "r=Ints,NotWidth8 o=Ints,HalfWidth:r,SameCount:r p=Same:o"),
    ("select", "187", "r=Numbers o=Same:r p=Same:r q=Ints,SameWidth:r,SameCount:r"),
    (
        "shuffle",
        "182 183",
        "r=Numbers,Shuffled o=Numbers,ComponentOf:r,Shuffled +=Same:o last=Ints,SameWidth:r,SameCount:r",
    ),
    ("load", "171", "r=Numbers,Vector o=Size p=Loaded,PointsToComponent:r q=Count:r"),
    ("load_half", "173", "r=Floats,Scalar o=Size p=Loaded,PointsToHalf"),
    ("load_halfn", "174 179", "r=Floats,Vector o=Size p=Loaded,PointsToHalf q=Count:r"),
    ("store", "172", "r=Void o=Numbers,Vector p=Size q=Stored,PointsToComponent:o"),
    ("store_half", "175 176", "r=Void o=Floats,Scalar,NotHalf p=Size q=Stored,PointsToHalf s=Rounding"),
    ("store_halfn", "177 178 180 181", "r=Void o=Floats,Vector,NotHalf p=Size q=Stored,PointsToHalf s=Rounding"),
    ("prefetch", "185", "r=Void o=Global,PointsToNumbers p=Size"),
    ("printf", "184", "r=Ints,Scalar,Width32 o=Constant,PointsToChars"),
)
CLASS_OF = {number: name for name, numbers, _ in CLASSES for number in opcodes_in(numbers)}
LETTERS = "opqs"
UNIFORM_CONSTANT, WORKGROUP, CROSS_WORKGROUP, FUNCTION, GENERIC = 0, 4, 5, 7, 8
# The storage classes that a store may name, and those that a load may.
STORED = (WORKGROUP, CROSS_WORKGROUP, FUNCTION, GENERIC)
LOADED = (*STORED, UNIFORM_CONSTANT)
MODEL = 14
ADDRESSES = {1: 32, 2: 64}
ROUNDING_MODES = range(4)


@lru_cache(maxsize=None)
def conditions_of(name):
    """The conditions of a class: of each seat those at it, each a name and the seat whose type is wanted."""
    row = next(seats for known, _, seats in CLASSES if known == name)
    seats = (it.split("=") for it in row.split())
    return {seat: [each.partition(":")[::2] for each in names.split(",")] for seat, names in seats}


class Call:
    """An instruction of OpenCL.std: its result type, and what stands behind its number."""

    def __init__(self, types, inst):
        self.types, self.result = types, inst.type
        self.number = inst.operands[len(HEAD) - 1][1]
        self.behind = [it[1] for it in inst.operands[len(HEAD) :]]

    def type_at(self, seat):
        """The type of a seat, None where no type is wanted."""
        if seat == "r":
            return self.result
        return self.types.type_of(self.behind[LETTERS.index(seat)]) if seat else None

    def scalar(self, of):
        return self.types.shape(of)[0]

    def width(self, of):
        return self.types.shape(of)[1]

    def count(self, of):
        return self.types.shape(of)[2]

    def component(self, of):
        """The component type, that of a scalar the scalar."""
        return self.types.rest(of)[0] if self.types.form(of) == VECTOR else of

    def is_vector(self, of):
        return self.types.form(of) == VECTOR

    def pointee(self, of):
        return self.types.pointer(of)[1]

    def is_pointer(self, of, classes):
        return self.types.form(of) == POINTER and self.types.pointer(of)[0] in classes

    def is_wide(self, of, form, width):
        """Whether a type is a scalar of a form and a width."""
        return self.types.form(of) == form and self.types.rest(of)[0] == width

    def is_size(self, of):
        """Whether a type is an int as wide as an address."""
        model = next(it for it in self.types.insts if it.opcode == MODEL).operands[0][2]
        return self.is_wide(of, INT, ADDRESSES.get(model))

    def seats(self):
        """The seats in the order in which they are looked at, each with the number of its operand."""
        yield "r", 0
        known = conditions_of(CLASS_OF[self.number])
        for at in range(len(self.behind)):
            seat = "last" if at + 1 == len(self.behind) and "last" in known else LETTERS[at : at + 1]
            yield seat if seat in known else "+", len(HEAD) + at


# Of each condition whether it holds: of the call, the type that is looked at, and the one that is wanted. Those of
# NUMBERS look at a number that stands in the instruction.
HOLDS = {
    "Void": lambda it, of, wanted: it.types.form(of) == VOID,
    "Floats": lambda it, of, wanted: it.scalar(of) == FLOAT,
    "Ints": lambda it, of, wanted: it.scalar(of) == INT,
    "Numbers": lambda it, of, wanted: it.scalar(of) in (INT, FLOAT),
    "Scalar": lambda it, of, wanted: not it.is_vector(of),
    "Vector": lambda it, of, wanted: it.is_vector(of),
    "UpTo4": lambda it, of, wanted: it.count(of) <= 4,
    "ThreeOrFour": lambda it, of, wanted: it.count(of) in (3, 4),
    "Shuffled": lambda it, of, wanted: it.count(of) in (2, 4, 8, 16),
    "Width32": lambda it, of, wanted: it.width(of) == 32,
    "NotWidth8": lambda it, of, wanted: it.width(of) != 8,
    "NotHalf": lambda it, of, wanted: it.width(of) != 16,
    "Size": lambda it, of, wanted: it.is_size(of),
    "Same": lambda it, of, wanted: of == wanted,
    "SameCount": lambda it, of, wanted: it.count(of) == it.count(wanted),
    "SameWidth": lambda it, of, wanted: it.width(of) == it.width(wanted),
    "HalfWidth": lambda it, of, wanted: 2 * it.width(of) == it.width(wanted),
    "ComponentOf": lambda it, of, wanted: it.component(of) == it.component(wanted),
    "Stored": lambda it, of, wanted: it.is_pointer(of, STORED),
    "Loaded": lambda it, of, wanted: it.is_pointer(of, LOADED),
    "Global": lambda it, of, wanted: it.is_pointer(of, (CROSS_WORKGROUP,)),
    "Constant": lambda it, of, wanted: it.is_pointer(of, (UNIFORM_CONSTANT,)),
    "PointsTo": lambda it, of, wanted: it.pointee(of) == wanted,
    "PointsToComponent": lambda it, of, wanted: it.pointee(of) == it.component(wanted),
    "PointsToInts": lambda it, of, wanted: it.types.shape(it.pointee(of)) == (INT, 32, it.count(wanted)),
    "PointsToHalf": lambda it, of, wanted: it.is_wide(it.pointee(of), FLOAT, 16),
    "PointsToChars": lambda it, of, wanted: it.is_wide(it.pointee(of), INT, 8),
    "PointsToNumbers": lambda it, of, wanted: it.scalar(it.pointee(of)) in (INT, FLOAT),
    "Count": lambda it, number, wanted: number == it.count(wanted),
    "Rounding": lambda it, number, wanted: number in ROUNDING_MODES,
}
NUMBERS = ("Count", "Rounding")


def fault(types, inst):
    """The operand of an instruction of OpenCL.std that fails first and the condition that it fails by; None where all
    hold."""
    call = Call(types, inst)
    known = conditions_of(CLASS_OF[call.number])
    for seat, at in call.seats():
        for name, wanted in known.get(seat, ()):
            of = inst.operands[at][1]
            subject = of if at == 0 or name in NUMBERS else types.type_of(of)
            if not HOLDS[name](call, subject, call.type_at(wanted)):
                return at, name
    return None


def check_types_of_calls(types):
    """Y10."""
    names = imported(types.insts)
    for number, inst in enumerate(types.insts):
        call = called(names, inst)
        found = fault(types, inst) if call is not None and call[0] == OPENCL else None
        if found is not None:
            raise Broken("Y10", number, inst.word, *found)


# The line that `explain` has of Y10 behind the place: its key, with a semicolon after it.
TOLD = {"Y10": "operand;"}


class ToldOfTypes:
    """Whether the line of Y10 is true: what judge.py asks of the fault that it judges."""

    def fails_Y10(self, at):
        return at == fault(self.facts.types, self.inst)[0]
