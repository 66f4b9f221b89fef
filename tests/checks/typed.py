"""A module for each row of the table of types that holds it, and modules that break it.

The rows are those of docs/PROFILE.md: declarations of types (Y2), constants (Y4) and operations
(Y5). Each module has what the row's instruction needs and nothing else, so a case is told by the
instruction's opcode and the types of its operands.

A case is `RESULT: OPERAND ..`, where a type is written `i32`, `f64`, `bool`, `void`, `opaque`,
`v4(i32)`, `arr3(i32)` (an array), `st(i32,f32)` (a struct), `ptr5(i32)` (a pointer of storage class
5) or `fn(void,i32)` (a function type), and an operand

    TYPE        a value of the type: a parameter of the function
    t/TYPE      the type itself
    #5          the word 5
    =5/TYPE     a constant; spec=5/TYPE one that can be specialised
    null/TYPE   the null constant; undef/TYPE an undefined value
    var/TYPE    a variable of section 9, of that pointer type
"""

import json
import re
import struct
from itertools import chain

from .common import TESTS, Answer, Check, difference, run

CAPABILITIES = (4, 5, 6, 7, 9, 10, 11, 22, 38)
SCALARS = {"void": (19,), "bool": (20,), "opaque": (31, 0)}
TYPE = re.compile(r"([a-z]+)(\d*)(?:\((.*)\))?")


def parts_of(text):
    """The texts between the commas that stand in no brackets."""
    found, depth, begin = [], 0, 0
    for at, letter in enumerate(text):
        depth += (letter == "(") - (letter == ")")
        if letter == "," and depth == 0:
            found.append(text[begin:at])
            begin = at + 1
    return [*found, text[begin:]] if text else []


class Kernel:
    """A module that is put together section by section, and the place of the row's instruction."""

    def __init__(self):
        self.known = {}
        self.next = 1
        self.declared = []
        self.globals = []
        self.parameters = []
        self.body = []

    def fresh(self):
        """An id that no instruction has yet."""
        self.next += 1
        return self.next - 1

    def once(self, key, opcode, make):
        """The result of an instruction of section 9, made where it is not yet there."""
        if key not in self.known:
            operands = make()
            result = self.known[key] = self.fresh()
            self.declared.append((opcode, *(result if it is None else it for it in operands)))
        return self.known[key]

    def type(self, text):
        """The id of a type."""
        name, number, inside = TYPE.fullmatch(text).groups()
        if text in SCALARS:
            opcode, *rest = SCALARS[text]
            return self.once(text, opcode, lambda: (None, *rest))
        parts = parts_of(inside or "")
        count = int(number or 0)
        if name == "i":
            return self.once(text, 21, lambda: (None, count, 0))
        if name == "f":
            return self.once(text, 22, lambda: (None, count))
        if name == "v":
            return self.once(text, 23, lambda: (None, self.type(parts[0]), count))
        if name == "arr":
            return self.once(
                text, 28, lambda: (None, self.type(parts[0]), self.operand(f"={count}/i32"))
            )
        if name == "ptr":
            return self.once(text, 32, lambda: (None, count, self.type(parts[0])))
        opcode = {"st": 30, "fn": 33}[name]
        return self.once(text, opcode, lambda: (None, *map(self.type, parts)))

    def number(self, opcode, value, text):
        """A constant of an int or float type."""
        high = (value >> 32,) if text in ("i64", "f64") else ()
        return self.once(
            (opcode, value, text),
            opcode,
            lambda: (self.type(text), None, value & 0xFFFFFFFF, *high),
        )

    def operand(self, text):
        """The word of an operand."""
        if text.startswith("#"):
            return int(text[1:], 0)
        how, _, name = text.rpartition("/")
        if how == "t":
            return self.type(name)
        if how == "null":
            return self.once(text, 46, lambda: (self.type(name), None))
        if how == "undef":
            return self.once(text, 1, lambda: (self.type(name), None))
        if how == "var":
            return self.once(text, 59, lambda: (self.type(name), None, int(name[3])))
        if how:
            word, _, value = how.partition("=")
            return self.number(50 if word else 43, int(value, 0), name)
        return self.value(text)

    def value(self, text):
        """A value of a type: a parameter of the function."""
        key = ("value", text)
        if key not in self.known:
            of_type = self.type(text)
            self.known[key] = self.fresh()
            self.parameters.append((of_type, self.known[key]))
        return self.known[key]

    def words(self, rule, case):
        """The words after the first of the instruction that a case tells."""
        result, colon, operands = case.rpartition(":")
        head = [self.type(result)] if result else []
        given = [self.operand(text) for text in operands.split()]
        return [*head, *([self.fresh()] if result or rule == "Y2" else []), *given]


def first_word(opcode, operands):
    """The first word of an instruction."""
    return (len(operands) + 1) << 16 | opcode


def bytes_of(instructions, bound):
    """The bytes of a module with these instructions."""
    words = [0x07230203, 0x00010600, 0, bound, 0]
    for opcode, *operands in instructions:
        words += [first_word(opcode, operands), *operands]
    return struct.pack(f"<{len(words)}I", *words)


def around(kernel, opcode, words):
    """What stands before an instruction in its function's blocks, it itself, and what comes after."""
    entry, other, last = kernel.fresh(), kernel.fresh(), kernel.fresh()
    leave = [(248, other), (253,), (248, last), (253,)]
    if opcode == 245:
        of_type, result, *values = words
        pairs = chain.from_iterable((value, entry) for value in values)
        return [(248, entry), (249, other), (248, other)], (245, of_type, result, *pairs), [(253,)]
    if opcode == 250:
        condition, *weights = words
        return [(248, entry)], (250, condition, other, last, *weights), leave
    if opcode == 251:
        selector, *numbers = words
        cases = chain.from_iterable((number, other) for number in numbers)
        return [(248, entry)], (251, selector, last, *cases), leave
    return [(248, entry)], (opcode, *words), [(253,)]


def module(rule, opcode, case, is_global):
    """The bytes of a module with the instruction of a case, its number, and its first word."""
    kernel = Kernel()
    void = kernel.type("void")
    words = kernel.words(rule, case)
    imported = []
    if opcode == 12:
        imported = [(11, kernel.fresh(), int.from_bytes(b"std", "little"))]
        words.insert(2, imported[0][1])
    of_function = None if kernel.parameters else kernel.known.get("fn(void)")
    signature = []
    if of_function is None:
        of_function = kernel.fresh()
        signature = [(33, of_function, void, *(of_type for of_type, _ in kernel.parameters))]
    function = [*signature, (54, void, kernel.fresh(), 0, of_function)]
    function += [(55, of_type, result) for of_type, result in kernel.parameters]
    before = [*((17, it) for it in CAPABILITIES), *imported, (14, 2, 2), *kernel.declared]
    if is_global:
        after = [*function, (248, kernel.fresh()), (253,)]
        tested = (opcode, *words)
    else:
        begin, tested, after = around(kernel, opcode, words)
        before += [*function, *begin]
    place = len(before), 5 + sum(map(len, before))
    return bytes_of([*before, tested, *after, (56,)], kernel.next), place


def opcodes_in(text):
    """The opcodes of a row, written like `128 130 137-139`."""
    for part in text.split():
        first, _, last = part.partition("-")
        yield from range(int(first), int(last or first) + 1)


# Opcodes, cases that hold, cases that break the rule.
DECLARATIONS = (
    ("21", ("#8 #0", "#16 #0", "#32 #0", "#64 #0"), ("#24 #0", "#0 #0", "#128 #0", "#32 #1")),
    ("22", ("#16", "#32", "#64"), ("#8", "#33", "#128")),
    ("23", ("t/i32 #2", "t/f64 #16", "t/bool #3"), ("t/i32 #5", "t/v2(i32) #2", "t/void #2", "t/ptr5(i32) #4")),
    (
        "28",
        ("t/i32 =1/i32", "t/arr2(i8) =4/i64", "t/st() spec=1/i32", "t/ptr5(i32) =7/i8"),
        ("t/void =1/i32", "t/i32 =0/i32", "t/i32 null/i32", "t/i32 undef/i32", "t/i32 =1/f32", "t/opaque =1/i32"),
    ),
    ("30", ("", "t/i32 t/st(i32) t/ptr7(i32)"), ("t/void", "t/i32 t/opaque", "t/fn(void)")),
    ("32", ("#5 t/i32", "#7 t/opaque"), ("#5 t/void", "#5 t/fn(void)")),
    ("33", ("t/void t/i32", "t/i32 t/ptr5(i8) t/st()"), ("t/void t/void", "t/opaque", "t/i32 t/opaque")),
)
CONSTANTS = (
    ("41 42 48 49", ("bool:",), ("i32:", "v2(bool):")),
    ("43 50", ("i8:#255", "i16:#65535", "i32:#4294967295", "i64:#0 #4294967295", "f16:#65535", "f32:#1"), ("i8:#256", "i16:#65536", "f16:#65536")),
    (
        "44 51",
        ("v2(i32):null/i32 undef/i32", "arr1(i8):=1/i8", "st(i32,f32):null/i32 null/f32", "st():"),
        ("v2(i32):null/i32", "v2(i32):null/i32 null/i8", "arr1(i8):null/i8 null/i8", "st(i32,f32):null/f32 null/i32", "i32:null/i32", "ptr5(i8):", "st(ptr5(i8)):var/ptr5(i8)"),
    ),
    ("44", ("arr2(i8):null/i8 =3/i8",), ("arr1(i8):spec=1/i8",)),
    ("51", ("arr1(i8):spec=1/i8",), ("arr1(i8):null/i16",)),
    ("46", ("i32:", "v4(f32):", "st(i32):", "ptr5(i8):", "arr2(bool):"), ("void:", "opaque:", "fn(void):")),
)
VARIABLES = (
    ("59", ("ptr5(i32):#5", "ptr5(i32):#5 =1/i32", "ptr4(ptr5(i8)):#4 var/ptr5(i8)", "ptr0(opaque):#0"), ("ptr5(i32):#4", "i32:#5", "ptr7(i32):#7", "ptr8(i32):#8", "ptr5(i32):#5 =1/i8", "ptr5(i32):#5 undef/i32")),
    ("1", ("i32:", "ptr5(i32):", "st(i32):"), ("void:", "opaque:", "fn(void):")),
)
SHIFTS = ("i32: i32 i32", "i32: i32 i8", "v4(i32): v4(i32) v4(i64)")
COMPARED = ("bool: {0} {0}", "v4(bool): v4({0}) v4({0})")
NOT_COMPARED = ("bool: {0} {1}", "i32: {0} {0}", "bool: v4({0}) v4({0})", "v2(bool): v4({0}) v4({0})", "bool: bool bool")
ATOMIC = "=1/i32 =0/i32"
OPERATIONS = (
    ("1", ("i32:", "ptr5(opaque):", "arr2(i32):"), ("void:", "opaque:")),
    ("12", ("i32: #0 i32", "f32: #7"), ()),
    ("59", ("ptr7(i32):#7", "ptr7(i32):#7 =1/i32", "ptr7(ptr5(i8)):#7 var/ptr5(i8)"), ("ptr5(i32):#5", "ptr7(i32):#5", "ptr7(i32):#7 i32", "ptr7(i32):#7 =1/i64", "i32:#7")),
    ("61", ("i32: ptr5(i32)", "st(i32): ptr7(st(i32)) #1", "v4(f32): ptr4(v4(f32)) #2 #16"), ("i32: ptr5(i64)", "i32: i32", "opaque: ptr0(opaque)")),
    ("62", (": ptr5(i32) i32", ": ptr7(ptr5(i8)) ptr5(i8) #2 #8"), (": ptr5(i32) i64", ": i32 i32", ": i32 ptr5(i32)")),
    ("63", (": ptr5(i32) ptr7(i32)", ": ptr5(i8) ptr5(i8) #0"), (": ptr5(i32) ptr5(i64)", ": ptr5(i32) i32", ": i32 ptr5(i32)")),
    ("64", (": ptr5(i32) ptr7(i8) i64", ": ptr5(opaque) ptr5(i8) i8"), (": ptr5(i32) ptr7(i8) f32", ": i32 ptr7(i8) i64", ": ptr5(i8) i32 i64")),
    (
        "65 66",
        ("ptr5(i32): ptr5(i32)", "ptr5(f32): ptr5(st(i32,f32)) =1/i8", "ptr5(i32): ptr5(arr4(v2(i32))) i64 =9/i8", "ptr5(i8): ptr5(arr3(st(i8))) i32 =0/i64"),
        ("ptr5(i32): ptr5(i64)", "ptr7(i32): ptr5(i32)", "i32: ptr5(i32)", "ptr5(i32): i32", "ptr5(i32): ptr5(st(i32)) i32", "ptr5(i32): ptr5(st(i32)) =1/i32", "ptr5(i32): ptr5(st(i32)) spec=0/i32", "ptr5(i32): ptr5(st(i32)) null/i32", "ptr5(i32): ptr5(arr2(i32)) f32", "ptr5(i32): ptr5(i32) i32"),
    ),
    (
        "67 70",
        ("ptr5(i32): ptr5(i32) i64", "ptr5(f32): ptr5(st(i32,f32)) i8 =1/i32", "ptr5(i32): ptr5(arr4(v2(i32))) i32 i64 i8"),
        ("ptr5(i32): ptr5(i32) f32", "ptr7(i32): ptr5(i32) i32", "ptr5(i32): ptr5(st(i32)) i32 i32", "ptr5(i32): ptr5(st(i32)) i32 =1/i32", "ptr5(i32): i32 i32"),
    ),
    ("77", ("i32: v4(i32) i8", "bool: v2(bool) i64"), ("i64: v4(i32) i32", "i32: i32 i32", "i32: v4(i32) f32", "i32: arr2(i32) i32")),
    ("78", ("v4(i32): v4(i32) i32 i8",), ("v4(i32): v4(i32) i64 i32", "v4(i32): v4(i32) i32 f32", "v2(i32): v4(i32) i32 i32", "i32: i32 i32 i32")),
    ("79", ("v2(i32): v4(i32) v2(i32) #5 #0xFFFFFFFF", "v4(f32): v2(f32) v2(f32) #0 #1 #2 #3"), ("v2(i32): v4(i32) v2(i32) #6 #0", "v2(i32): v4(i32) v4(i32) #0", "v2(i32): v4(i64) v4(i32) #0 #0", "v2(i64): v4(i32) v4(i32) #0 #0", "v2(i32): i32 v4(i32) #0 #0")),
    (
        "80",
        ("st(i32,f32): i32 f32", "arr2(i8): i8 i8", "v4(i32): v2(i32) i32 i32", "v4(f32): v2(f32) v2(f32)", "st():"),
        ("st(i32,f32): f32 i32", "arr2(i8): i8", "v4(i32): v4(i32)", "v4(i32): v2(i32) i32", "v4(i32): v2(i64) i32 i32", "i32: i32", "v2(i32): i32 i64"),
    ),
    (
        "81",
        ("i32: v4(i32) #3", "f32: st(i32,v2(f32)) #1 #0", "i8: arr3(i8) #2"),
        ("i32: i32", "v4(i32): v4(i32)", "i32: v4(i32) #4", "i64: v4(i32) #0", "i32: st(i32) #1", "i8: arr3(i8) #3", "i32: v4(i32) #0 #0"),
    ),
    (
        "82",
        ("v4(i32): i32 v4(i32) #3", "st(i32,v2(f32)): f32 st(i32,v2(f32)) #1 #0", "arr3(i8): i8 arr3(i8) #2"),
        ("v4(i32): i64 v4(i32) #3", "v4(i32): v4(i32) i32 #0", "v4(i32): i32 v4(i32) #4", "v2(i32): i32 v4(i32) #0", "v4(i32): v4(i32) v4(i32)"),
    ),
    ("83", ("i32: i32", "ptr5(opaque): ptr5(opaque)", "st(i32): st(i32)"), ("i32: i64", "v2(i32): i32")),
    ("109 110", ("i32: f32", "v4(i8): v4(f64)"), ("f32: f32", "i32: i32", "v2(i32): v4(f32)", "i32: v2(f32)", "bool: f32")),
    ("111 112", ("f32: i32", "v4(f64): v4(i8)"), ("i32: i32", "f32: f32", "v2(f32): v4(i32)", "f32: bool")),
    ("113 114", ("i32: i64", "v4(i8): v4(i16)"), ("i32: i32", "i32: f64", "v2(i32): v4(i64)", "f32: i64")),
    ("115", ("f32: f64", "v4(f16): v4(f32)"), ("f32: f32", "f32: i64", "v2(f32): v4(f64)", "i32: f64")),
    ("117", ("i64: ptr5(i32)", "i8: ptr7(opaque)"), ("f64: ptr5(i32)", "i64: i64", "v2(i32): ptr5(i32)")),
    ("120", ("ptr5(i32): i64",), ("i32: i64", "ptr5(i32): f64", "ptr5(i32): ptr5(i32)")),
    ("121", ("ptr8(i32): ptr5(i32)", "ptr8(i32): ptr4(i32)", "ptr8(i32): ptr7(i32)"), ("ptr8(i32): ptr5(i8)", "ptr5(i32): ptr5(i32)", "ptr8(i32): ptr0(i32)", "ptr8(i32): ptr8(i32)", "ptr8(i32): i32")),
    ("122", ("ptr5(i32): ptr8(i32)", "ptr4(i32): ptr8(i32)", "ptr7(i32): ptr8(i32)"), ("ptr5(i32): ptr8(i8)", "ptr8(i32): ptr8(i32)", "ptr0(i32): ptr8(i32)", "ptr5(i32): ptr5(i32)")),
    ("124", ("f32: i32", "v2(i32): i64", "i32: i32", "v4(i8): v2(f16)", "ptr5(i8): ptr5(i32)"), ("f32: i64", "ptr5(i8): ptr7(i8)", "i64: ptr5(i8)", "bool: i8", "v2(i32): v4(i32)")),
    ("126 200", ("i32: i32", "v4(i8): v4(i8)"), ("f32: f32", "i32: i64", "bool: bool")),
    ("127", ("f32: f32", "v4(f16): v4(f16)"), ("i32: i32", "f32: f64")),
    ("128 130 132 134 135 137-139 197-199", ("i32: i32 i32", "v4(i8): v4(i8) v4(i8)"), ("i32: i32 i64", "f32: f32 f32", "bool: bool bool", "i64: i32 i32", "v4(i32): v4(i32) i32")),
    ("129 131 133 136 140 141", ("f32: f32 f32", "v4(f16): v4(f16) v4(f16)"), ("f32: f32 f64", "i32: i32 i32", "f64: f32 f32", "v4(f32): v4(f32) f32")),
    ("164-167", ("bool: bool bool", "v4(bool): v4(bool) v4(bool)"), ("i32: i32 i32", "bool: bool v4(bool)", "v4(bool): bool bool")),
    ("168", ("bool: bool", "v4(bool): v4(bool)"), ("i32: i32", "v4(bool): bool")),
    ("169", ("i32: bool i32 i32", "v4(f32): bool v4(f32) v4(f32)", "v4(f32): v4(bool) v4(f32) v4(f32)", "ptr5(i8): bool ptr5(i8) ptr5(i8)"), ("i32: i32 i32 i32", "i32: bool i32 i64", "v4(f32): v2(bool) v4(f32) v4(f32)", "i32: v4(bool) i32 i32", "i64: bool i32 i32")),
    ("170-179", tuple(it.format("i32") for it in COMPARED), tuple(it.format("i32", "i64") for it in NOT_COMPARED)),
    ("180-191", tuple(it.format("f32") for it in COMPARED), tuple(it.format("f32", "f64") for it in NOT_COMPARED)),
    ("194-196", SHIFTS, ("i32: i64 i32", "i32: i32 f32", "v4(i32): v4(i32) i32", "f32: f32 i32")),
    ("224", (": =1/i32 =2/i32 =0/i32",), (": =1/i64 =2/i32 =0/i32", ": =1/i32 =2/i32 f32")),
    ("225", (": =1/i32 =0/i32",), (": =1/i64 =0/i32", ": =1/i32 =0/i8")),
    ("227", (f"i32: ptr5(i32) {ATOMIC}", f"f32: ptr4(f32) {ATOMIC}"), (f"i32: ptr5(i64) {ATOMIC}", "i32: ptr5(i32) =1/i64 =0/i32", f"ptr5(i8): ptr5(ptr5(i8)) {ATOMIC}", f"i32: i32 {ATOMIC}")),
    ("228", (f": ptr5(i32) {ATOMIC} i32", f": ptr5(f32) {ATOMIC} f32"), (f": ptr5(i32) {ATOMIC} i64", ": ptr5(i32) =1/i32 =0/i64 i32", f": ptr5(v2(i32)) {ATOMIC} v2(i32)")),
    ("229", (f"i32: ptr5(i32) {ATOMIC} i32", f"f32: ptr5(f32) {ATOMIC} f32"), (f"i32: ptr5(i32) {ATOMIC} i64", f"i64: ptr5(i32) {ATOMIC} i64", f"bool: ptr5(bool) {ATOMIC} bool")),
    ("230", ("i32: ptr5(i32) =1/i32 =0/i32 =0/i32 i32 i32",), ("i32: ptr5(i32) =1/i32 =0/i32 =0/i32 i32 i64", "i32: ptr5(i32) =1/i32 =0/i32 =0/i64 i32 i32", "f32: ptr5(f32) =1/i32 =0/i32 =0/i32 f32 f32")),
    ("232 233", (f"i32: ptr5(i32) {ATOMIC}",), (f"f32: ptr5(f32) {ATOMIC}", f"i64: ptr5(i32) {ATOMIC}", "i32: ptr5(i32) =1/i32 =0/i8")),
    ("234-242", (f"i32: ptr5(i32) {ATOMIC} i32",), (f"i32: ptr5(i32) {ATOMIC} i64", f"f32: ptr5(f32) {ATOMIC} f32", "i32: ptr5(i32) =1/i64 =0/i32 i32", f"i32: ptr5(i64) {ATOMIC} i32")),
    ("245", ("i32: i32", "st(i32): st(i32)"), ("i32: i64", "i64: i32")),
    ("250", (": bool", ": bool #1 #2"), (": i32", ": bool #1", ": bool #1 #2 #3", ": v2(bool)")),
    ("251", (": i32 #1", ": i8"), (": bool", ": f32 #1")),
    ("256 257", (": ptr7(i32) #0", ": ptr7(opaque) #8"), (": ptr5(i32) #0", ": i32 #0")),
)
ROWS = (
    ("Y2", True, DECLARATIONS),
    ("Y4", True, CONSTANTS),
    ("Y5", True, VARIABLES),
    ("Y5", False, OPERATIONS),
)


def forward(pointed):
    """A module with a struct that points to itself, whose pointer is declared ahead with this class."""
    kernel = Kernel()
    void, pointer, node = kernel.type("void"), kernel.fresh(), kernel.fresh()
    signature, function, label = kernel.fresh(), kernel.fresh(), kernel.fresh()
    before = [*((17, it) for it in CAPABILITIES), (14, 2, 2), *kernel.declared]
    place = len(before), 5 + sum(map(len, before))
    after = [(39, pointer, pointed), (30, node, pointer), (32, pointer, 5, node)]
    after += [(33, signature, void), (54, void, function, 0, signature), (248, label), (253,), (56,)]
    return bytes_of([*before, *after], kernel.next), place


def verdict(content, wanted):
    """The check of a module's verdict."""

    def check(program, folder):
        module_file = folder / "module.spv"
        module_file.write_bytes(content)
        words = ["check", "--grammar", TESTS / "profile.json", module_file]
        return difference(wanted, run(program, words, folder))

    return check


def names():
    """The name of each opcode."""
    grammar = json.loads((TESTS / "profile.json").read_text(encoding="utf-8"))
    return {entry["opcode"]: entry["opname"] for entry in grammar["instructions"]}


def told(rule, made, holds):
    """A module and what must be said of it."""
    content, (number, word) = made
    fault = f"fault {rule} inst {number} word {word}\n".encode()
    return verdict(content, Answer(b"valid\n", b"", 0) if holds else Answer(fault, b"", 1))


def checks():
    """Each case of each row, for each of its opcodes."""
    layers = frozenset({"types", "operations"})
    known = names()
    found = []
    for rule, is_global, rows in ROWS:
        for opcodes, holds, breaks in rows:
            for opcode in opcodes_in(opcodes):
                for case in chain(holds, breaks):
                    made = module(rule, opcode, case, is_global)
                    section = " before functions" if is_global else ""
                    how = "holds" if case in holds else "breaks"
                    name = f"{rule} {how}: {known[opcode]} {case}{section}"
                    found.append(Check(name, layers, told(rule, made, case in holds)))
    for pointed, how in ((5, "holds"), (7, "breaks")):
        name = f"Y2 {how}: OpTypeForwardPointer of class {pointed} to a pointer of class 5"
        found.append(Check(name, layers, told("Y2", forward(pointed), pointed == 5)))
    return found
