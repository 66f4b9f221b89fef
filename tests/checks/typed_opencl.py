"""A module for each row that `--opencl` adds to the table of types that holds it, and modules that break it: what the
program says of each, the second reading, and spirv-val.

As typed.py, which says how a case is written, under opencl.json. Besides, a type may be

    im1(f32,..)    an image type: its Dim, the sampled type, and words that are not 0: depth1, arrayed1, ms1, sampled1,
                   format1, access1 (which is left out where it is not said)
    sampler        and so event, devent (of a device), reserve, queue, pipe0 (its access), storage (of a pipe), barrier
    smp(im1(f32))  the sampled image type of an image type
    st2(i32)       another struct with these members than st(i32)

and an operand

    smp/im1(f32)   a sampled image of that image type, which the block makes
    cs/sampler     a constant sampler; cp/storage a constant pipe storage
    f/fn(void,i32) a function of that type, behind the first one; kernel: the first one, which is an entry point
    e/NAME         the extended instruction set of that name
    group          a decoration group; s/abc a text of three letters or less
"""

from itertools import chain

from reading.profiles import Profile
from reading.verdict import grammar_in, verdict

from . import typed
from .common import TESTS, Answer, Check, difference, joined, run

GRAMMAR = TESTS / "opencl.json"
CAPABILITIES = (
    *(*typed.CAPABILITIES, 12, 13, 14, 15, 17, 18, 19, 20, 39, 43, 44, 46, 47, 58, 59, 60, 61, 62, 63, 64, 65, 66, 67),
    68,
)
# What dot products need, which earlier versions than 1.6 have no capabilities for.
DOT = (6016, 6017, 6018, 6019)
# What the instructions on bits need: a capability, and the extension that has it.
OF_BITS, BITS, EXTENSION = (201, 202, 203, 204), 6025, "SPV_KHR_bit_instructions"
# The last version of instructions that 1.6 has no longer.
LAST_VERSION = {161: 5, 231: 3}
OBJECTS = {"sampler": 26, "event": 34, "devent": 35, "reserve": 36, "queue": 37, "storage": 322, "barrier": 327}
IMAGE_WORDS = ("depth", "arrayed", "ms", "sampled", "format")


class Kernel(typed.Kernel):
    """A module as typed.py puts it together, with what may stand in it besides."""

    def __init__(self):
        super().__init__()
        self.imported, self.groups, self.functions = [], [], []
        self.entry = self.fresh()

    def type(self, text):
        name, number, inside = typed.TYPE.fullmatch(text).groups()
        if name in OBJECTS:
            return self.once(text, OBJECTS[name], lambda: (None,))
        if name == "pipe":
            return self.once(text, 38, lambda: (None, int(number)))
        if name == "smp":
            return self.once(text, 27, lambda: (None, self.type(inside)))
        if name == "im":
            return self.once(text, 25, lambda: (None, *self.image(int(number), typed.parts_of(inside))))
        if name == "st" and number:
            return self.once(text, 30, lambda: (None, *map(self.type, typed.parts_of(inside))))
        return super().type(text)

    def image(self, dim, parts):
        """The operands of an image type."""
        said = {it.rstrip("0123456789"): int(it.lstrip("abcdefghijklmnopqrstuvwxyz")) for it in parts[1:]}
        access = [said["access"]] if "access" in said else []
        return [self.type(parts[0]), dim, *(said.get(it, 0) for it in IMAGE_WORDS), *access]

    def operand(self, text):
        how, _, name = text.partition("/")
        if how == "kernel":
            return self.entry
        if how == "group":
            return self.made(text, self.groups, 73)
        if how == "e":
            return self.made(text, self.imported, 11, *self.letters(name))
        if how == "s":
            return self.letters(name)[0]
        if how == "cs":
            return self.once(text, 45, lambda: (self.type(name), None, 0, 0, 0))
        if how == "cp":
            return self.once(text, 323, lambda: (self.type(name), None, 4, 4, 1))
        if how == "smp":
            return self.sampled(name)
        if how == "f":
            return self.function(name)
        return super().operand(text)

    @staticmethod
    def letters(text):
        """The words of a text."""
        content = text.encode() + bytes(4 - len(text.encode()) % 4)
        return [int.from_bytes(content[at : at + 4], "little") for at in range(0, len(content), 4)]

    def made(self, text, where, opcode, *operands):
        """The result of an instruction that stands in a section of its own."""
        if text not in self.known:
            self.known[text] = self.fresh()
            where.append((opcode, self.known[text], *operands))
        return self.known[text]

    def sampled(self, image):
        """A sampled image, which can be no parameter."""
        given = [self.type(f"smp({image})"), self.value(image), self.value("sampler")]
        result = self.fresh()
        self.body.append((86, given[0], result, *given[1:]))
        return result

    def function(self, signature):
        """A function of a type, whose result is void."""
        of_void, *parameters = map(self.type, typed.parts_of(signature[len("fn(") : -1]))
        result, label = self.fresh(), self.fresh()
        self.functions.append((54, of_void, result, 0, self.type(signature)))
        self.functions += [(55, of, self.fresh()) for of in parameters]
        self.functions += [(248, label), (253,), (56,)]
        return result


# Where the instruction of a row stands.
BLOCK, DECLARED, DECORATIONS, MODES = "in a block", "before functions", "among decorations", "among modes"


def module(rule, opcode, case, where):
    """The bytes of a module with the instruction of a case, its number, and its first word."""
    kernel = Kernel()
    void = kernel.type("void")
    words = kernel.words(rule, case)
    signature = kernel.fresh()
    taken = [of_type for of_type, _ in kernel.parameters]
    known = next((it[1] for it in kernel.declared if (it[0], *it[2:]) == (33, void, *taken)), None)
    of_function = known or signature
    function = [] if known else [(33, signature, void, *taken)]
    function += [(54, void, kernel.entry, 0, of_function), *((55, *it) for it in kernel.parameters)]
    is_of_bits = opcode in OF_BITS
    more = (BITS,) if is_of_bits else () if opcode in LAST_VERSION else DOT
    begun = [(17, it) for it in (*CAPABILITIES, *more)]
    begun += [(10, *kernel.letters(EXTENSION))] if is_of_bits else []
    begun += [*kernel.imported, (14, 2, 2)]
    ended = [(56,), *kernel.functions]
    if where == MODES:
        begun.append((15, 6, kernel.entry, *kernel.letters("k")))
    tested, decorated = (opcode, *words), [*kernel.groups]
    body = [*function, (248, kernel.fresh()), *kernel.body, (253,), *ended]
    if where == MODES:
        before, after = begun, [*decorated, *kernel.declared, *body]
    elif where == DECORATIONS:
        before, after = [*begun, *decorated], [*kernel.declared, *body]
    elif where == DECLARED:
        before, after = [*begun, *decorated, *kernel.declared], body
    else:
        begin, tested, leave = typed.around(kernel, opcode, words)
        before = [*begun, *decorated, *kernel.declared, *function, *begin, *kernel.body]
        after = [*leave, *ended]
    place = len(before), 5 + sum(map(len, before))
    content = typed.bytes_of([*before, tested, *after], kernel.next)
    minor = LAST_VERSION.get(opcode, 6)
    return content[:5] + bytes([minor]) + content[6:], place


RANGE = "st(i32,arr3(i64),arr3(i64),arr3(i64))"
OF_BLOCK = "f/fn(void,ptr8(i8)) ptr8(i8) i32 i32"
NO_BLOCKS = (
    *("f/fn(i32,ptr8(i8)) ptr8(i8) i32 i32", "f/fn(void) ptr8(i8) i32 i32", "f/fn(void,ptr8(i8)) ptr5(i8) i32 i32"),
    *("f/fn(void,ptr8(i32)) ptr8(i32) i32 i32", "f/fn(void,ptr8(i8)) ptr8(i8) i64 i32"),
    *("f/fn(void,ptr8(i8)) ptr8(i8) i32 f32", "f/fn(void,i8) i8 i32 i32"),
)
ENQUEUED = f"queue i32 {RANGE} i32 ptr8(devent) ptr7(devent)"
TYPES = (
    (
        "25",
        ("t/void #1 #0 #0 #0 #0 #0 #0", "t/f32 #0 #2 #1 #0 #1 #0", "t/i32 #5 #1 #0 #1 #2 #0 #1", "t/f16 #2 #0 #0 #0 #0 #0 #2"),
        ("t/bool #1 #0 #0 #0 #0 #0", "t/v4(f32) #1 #0 #0 #0 #0 #0", "t/f32 #1 #3 #0 #0 #0 #0", "t/f32 #1 #0 #2 #0 #0 #0", "t/f32 #1 #0 #0 #2 #0 #0", "t/f32 #1 #0 #0 #0 #3 #0", "t/sampler #1 #0 #0 #0 #0 #0"),
    ),
    ("26 34-37 322 327", ("",), ()),
    ("27", ("t/im1(f32)", "t/im0(void,arrayed1)", "t/im1(i32,ms1,sampled2)"), ("t/im5(f32)", "t/f32", "t/sampler")),
    ("38", ("#0", "#1", "#2"), ()),
    ("23", (), ("t/sampler #2", "t/event #4")),
    ("28", ("t/sampler =2/i32", "t/im1(f32) =1/i32", "t/barrier =3/i8"), ("t/smp(im1(f32)) =1/i32",)),
    ("30", ("t/im1(f32) t/queue t/pipe0", "t/storage", "t/reserve t/devent"), ("t/smp(im1(f32))",)),
    ("32", ("#7 t/sampler", "#0 t/im1(void)", "#5 t/event"), ("#7 t/smp(im1(f32))",)),
    ("33", ("t/sampler t/pipe0", "t/void t/im1(f32) t/barrier"), ("t/void t/smp(im1(f32))", "t/smp(im1(f32))")),
)
CONSTANTS = (
    ("45", ("sampler: #0 #0 #1", "sampler: #3 #1 #0"), ("sampler: #0 #2 #0", "i32: #0 #0 #0", "smp(im1(f32)): #0 #0 #0")),
    ("323", ("storage: #4 #4 #8",), ("i32: #4 #4 #8", "pipe0: #4 #4 #8")),
    (
        "46",
        ("event:", "devent:", "reserve:", "queue:", "arr2(event):", "st(i32,queue):", "st(st(arr2(reserve)),ptr7(sampler)):"),
        ("im1(f32):", "sampler:", "pipe0:", "storage:", "barrier:", "smp(im1(f32)):", "arr2(sampler):", "st(i32,pipe1):", "arr2(st(arr2(barrier))):"),
    ),
    (
        "44 51",
        ("st(sampler,i32):cs/sampler null/i32", "arr1(storage):cp/storage", "arr2(event):null/event undef/event"),
        ("arr1(storage):cs/sampler", "st(sampler):cp/storage", "arr1(event):null/queue"),
    ),
)
VARIABLES = (
    ("59", ("ptr0(sampler):#0 cs/sampler", "ptr5(storage):#5 cp/storage", "ptr0(im1(f32)):#0"), ("ptr0(sampler):#0 cp/storage", "ptr5(storage):#5 undef/storage")),
    ("1", ("sampler:", "arr2(event):", "pipe1:"), ("smp(im1(f32)):",)),
    (
        "12",
        ("void: e/OpenCL.DebugInfo.100 #0", "void: e/DebugInfo #0", "void: e/SPIRV.debug #2", "void: e/NonSemantic.Any #7 =1/i32", "void: e/NonSemantic. #7"),
        ("i32: e/NonSemantic.Any #7", "void: e/OpenCL.std #155", "void: e/NonSemantic #7", "void: e/OpenCL.DebugInfo.1001 #0", "void: e/debuginfo #0"),
    ),
)
DECORATED = (
    ("74", (": group", ": group var/ptr5(i32) t/i32"), (": var/ptr5(i32)", ": group group", ": var/ptr5(i32) group")),
    ("75", (": group", ": group t/st(i32,f32) #1 t/st(i32) #0"), (": group t/st(i32) #1", ": group t/i32 #0", ": var/ptr5(i32) t/st(i32) #0", ": group t/st(i32) #0 t/v4(i32) #0")),
    ("332", (": var/ptr5(i32) #46 =4/i32", ": group #46 spec=4/i32", ": var/ptr5(i32) #46 var/ptr5(f32)", ": var/ptr5(i32) #47 null/i64"), (": var/ptr5(i32) #46 t/i32", ": var/ptr5(i32) #44 #4", ": var/ptr5(i32) #19", ": var/ptr5(i32) #46 undef/i32", ": var/ptr5(i32) #46 kernel")),
    ("5632", (": var/ptr5(i32) #5635 s/abc", ": group #5635 s/"), (": var/ptr5(i32) #44 #4", ": var/ptr5(i32) #19", ": kernel #41 s/abc #0")),
    ("5633", (": t/st(i32) #0 #5635 s/abc", ": t/st(i32,i32) #1 #5635 s/a"), (": t/st(i32) #0 #44 #4", ": t/st(i32) #0 #19")),
)
MODED = (
    ("331", (": kernel #38 =1/i32 spec=2/i64 null/i8", ": kernel #37 =1/i32"), (": kernel #17 #1 #1 #1", ": kernel #31", ": kernel #37 =1/f32", ": kernel #37 t/i32", ": kernel #37 undef/i32", ": kernel #38 =1/i32 =2/i32 null/v2(i32)")),
)
SCANNED = ("{0}: =2/i32 #0 {0}", "v4({0}): =2/i32 #2 v4({0})", "{0}: =2/i32 #1 {0}")
NOT_SCANNED = ("{0}: =2/i32 #3 {0}", "{0}: =2/i64 #0 {0}", "bool: =2/i32 #0 bool")
CLUSTERED = (*SCANNED, "{0}: =2/i32 #3 {0} =4/i32", "v4({0}): =2/i32 #3 v4({0}) spec=4/i64")
NOT_CLUSTERED = ("{0}: =2/i32 #3 {0}", "{0}: =2/i64 #0 {0}", "{0}: =2/i32 #0 {0} =4/i32", "{0}: =2/i32 #3 {0} i32", "{0}: =2/i32 #3 {0} =4/f32")
HANDED = ("i32: =3/i32 i32 i32", "v4(f32): =3/i32 v4(f32) i64", "bool: =3/i32 bool i8")
NOT_HANDED = ("i32: =3/i32 i64 i32", "i32: =3/i32 i32 f32", "ptr5(i8): =3/i32 ptr5(i8) i32", "i32: =3/i64 i32 i32", "i32: =3/i32 i32 v2(i32)")
SAMPLED = (
    *("v4(f32): smp/im1(f32) v2(f32) #2 f32", "v4(i32): smp/im1(void) v2(i32) #2 =0/f32", "v4(f32): smp/im0(f32) v4(f32) #2 f64"),
    *("v4(f32): smp/im1(f32,sampled1) v4(f32) #4 v2(f32) v2(f64)", "v4(f32): smp/im1(f32,arrayed1) v3(i32) #10 f32 null/v2(i32)"),
    *("v4(i32): smp/im1(i32) v2(f32) #4098 f32", "v4(i32): smp/im2(void) v3(f32) #8194 f32", "v4(f32): smp/im1(f32) v2(f32) #16386 f32"),
)
NOT_SAMPLED = (
    *("v4(f32): smp/im1(f32) v2(f32) #0", "v4(f32): smp/im1(f32) v2(f32) #6 f32 v2(f32) v2(f32)", "v4(f32): smp/im1(f32) v2(f32) #2 i32"),
    *("v4(f32): smp/im1(f32) v2(f32) #4 v2(f32) v4(f32)", "v4(f32): smp/im1(f32) v2(f32) #4 v2(f32) v2(i32)"),
    *("v4(f32): smp/im1(f32) v2(f32) #10 f32 v2(i32)", "v4(f32): smp/im1(f32) v2(f32) #10 f32 null/v4(i32)"),
    *("v4(f32): smp/im1(f32) v2(f32) #10 f32 null/v2(f32)", "v4(f32): smp/im1(f32) v2(f32) #4098 f32"),
    *("v4(i32): smp/im1(i32) v2(f32) #12290 f32", "v4(f32): smp/im1(f32) v2(f32) #66 f32 i32", "v2(f32): smp/im1(f32) v2(f32) #2 f32"),
    *("v4(i32): smp/im1(f32) v2(f32) #2 f32", "f32: smp/im1(f32) v2(f32) #2 f32", "v4(f32): smp/im1(f32) f32 #2 f32"),
    *("v4(f32): smp/im1(f32,arrayed1) v2(f32) #2 f32", "v4(f32): smp/im1(f32,ms1) v2(f32) #2 f32", "v4(f32): im1(f32) v2(f32) #2 f32"),
    *("v4(f32): smp/im1(f32) v2(bool) #2 f32", "v4(bool): smp/im1(void) v2(f32) #2 f32", "v4(f64): smp/im1(f32) v2(f32) #2 f32"),
)
FETCHED = (
    *("v4(f32): im1(f32,sampled1) v2(i32)", "v4(f32): im1(f32,sampled1) v4(i64) #2 i32", "v4(i32): im5(void,sampled1) i32"),
    *("v4(i32): im1(i32,ms1,sampled1) v2(i32) #64 i32", "v4(i32): im1(i32,sampled1) v2(i32) #4104 null/v2(i8)"),
    *("v4(f32): im2(f32,sampled1) v3(i32) #0", "v4(f32): im1(f32,sampled1,arrayed1) v3(i32) #16384"),
)
NOT_FETCHED = (
    *("v4(f32): im1(f32) v2(i32)", "v4(f32): im1(f32,sampled2) v2(i32)", "v4(f32): im1(f32,sampled1) v2(f32)", "f32: im1(f32,sampled1) v2(i32)"),
    *("v4(f32): im1(f32,sampled1) v2(i32) #2 f32", "v4(f32): im1(f32,sampled1) v2(i32) #4 v2(f32) v2(f32)"),
    *("v4(f32): im1(f32,ms1,sampled1) v2(i32)", "v4(f32): im1(f32,sampled1) v2(i32) #64 i32", "v4(f32): im1(f32,sampled1) i32"),
    *("v4(f32): im1(f32,ms1,sampled1) v2(i32) #64 f32", "v4(i32): im1(f32,sampled1) v2(i32)", "v4(f32): smp/im1(f32,sampled1) v2(i32)"),
)
READ = (
    *("v4(f32): im1(f32) v2(i32)", "f32: im1(void,sampled2) v4(i32)", "v4(f32): im1(f32) v2(i32) #2 i32", "v4(i32): im1(i32) v2(i32) #8192"),
    *("v2(i32): im1(i32,ms1) v2(i32) #64 i64", "v4(f32): im0(f32,arrayed1) v2(i32)"),
)
NOT_READ = (
    *("v4(f32): im1(f32,sampled1) v2(i32)", "v4(i32): im1(f32) v2(i32)", "v4(f32): im1(f32) v2(f32)", "v4(f32): im1(f32) i32", "bool: im1(void) v2(i32)"),
    *("v4(f32): im1(f32) v2(i32) #4096", "v4(f32): im1(f32) v2(i32) #2 f32", "v4(f32): im1(f32,ms1) v2(i32)", "v4(f32): sampler v2(i32)", "v4(f32): im1(f32) v2(i32) #64 i32"),
)
WRITTEN = (
    *(": im1(f32) v2(i32) v4(f32)", ": im1(void,sampled2) v4(i32) f32", ": im1(f32) v2(i32) v4(f32) #2 i32", ": im1(i32) v2(i32) v4(i32) #4096"),
    *(": im1(i32,ms1) v2(i32) i32 #64 i32", ": im5(i32) i64 v4(i32)"),
)
NOT_WRITTEN = (
    *(": im1(f32,sampled1) v2(i32) v4(f32)", ": im1(f32) v2(i32) v4(i32)", ": im1(f32) v2(f32) v4(f32)", ": im1(f32) i32 v4(f32)", ": im1(void) v2(i32) bool"),
    *(": im1(f32) v2(i32) v4(f32) #8192", ": im1(f32) v2(i32) v4(f32) #2 f32", ": im1(f32,ms1) v2(i32) v4(f32)", ": event v2(i32) v4(f32)"),
)
IMAGES = (
    (
        "60",
        ("ptr11(i32): ptr0(im1(i32)) v2(i32) i32", "ptr11(f32): ptr5(im0(f32,arrayed1)) v2(i32) =0/i64"),
        ("ptr11(f32): ptr0(im1(i32)) v2(i32) i32", "ptr7(i32): ptr0(im1(i32)) v2(i32) i32", "ptr11(i32): ptr0(im1(i32)) v3(i32) i32", "ptr11(i32): ptr0(im1(i32)) v2(f32) i32", "ptr11(i32): ptr0(im1(i32)) v2(i32) f32", "ptr11(i32): im1(i32) v2(i32) i32"),
    ),
    (
        "86",
        ("smp(im1(f32)): im1(f32) sampler", "smp(im2(void,sampled1)): im2(void,sampled1) sampler"),
        ("smp(im1(f32,sampled2)): im1(f32,sampled2) sampler", "smp(im1(f32)): im1(f32) i32", "smp(im2(f32)): im1(f32) sampler", "i32: im1(f32) sampler", "smp(im1(f32)): sampler sampler", "st(im1(f32)): im1(f32) sampler"),
    ),
    ("88", SAMPLED, NOT_SAMPLED),
    ("95", FETCHED, NOT_FETCHED),
    ("98", READ, NOT_READ),
    ("99", WRITTEN, NOT_WRITTEN),
    ("100", ("im1(f32): smp/im1(f32)",), ("im2(f32): smp/im1(f32)", "im1(f32): im1(f32)", "i32: smp/im1(f32)", "im1(f32): st(im1(f32))")),
    ("101 102", ("i32: im1(f32)", "i8: im5(void,access1)"), ("f32: im1(f32)", "i32: sampler", "v2(i32): im1(f32)")),
    (
        "103",
        ("v2(i32): im1(f32) i32", "i32: im0(f32) i64", "v3(i32): im1(f32,arrayed1) i32", "v3(i64): im2(void) i32"),
        ("i32: im1(f32) i32", "i32: im5(f32) i32", "v2(i32): im1(f32,ms1) i32", "v2(f32): im1(f32) i32", "v2(i32): im1(f32) f32", "v2(i32): sampler i32"),
    ),
    (
        "104",
        ("v2(i32): im1(f32)", "i32: im5(f32,sampled1)", "v2(i64): im1(f32,ms1,sampled1)", "v3(i32): im2(f32,sampled2)"),
        ("v2(i32): im1(f32,sampled1)", "v3(i32): im1(f32)", "v2(f32): im1(f32)", "i32: event"),
    ),
    ("106", ("i32: im1(f32)", "i64: im2(void,sampled1)"), ("i32: im5(f32)", "f32: im1(f32)", "i32: sampler")),
    ("107", ("i32: im1(f32,ms1)",), ("i32: im1(f32)", "i32: im2(f32,ms1)", "f32: im1(f32,ms1)", "i32: queue")),
)
OPERATIONS = (
    ("1", ("sampler:", "arr2(event):"), ("smp(im1(f32)):",)),
    ("12", ("i32: e/Other #3 i32", "void: e/NonSemantic.Any #3", "f32: e/OpenCL.DebugInfo.100 #0"), ()),
    ("59", ("ptr7(sampler):#7", "ptr7(event):#7 null/event", "ptr7(sampler):#7 cs/sampler"), ("ptr7(sampler):#7 sampler",)),
    ("61", ("sampler: ptr0(sampler)", "event: ptr7(event) #1"), ("sampler: ptr0(event)",)),
    ("62", (": ptr7(event) event", ": ptr7(arr2(im1(f32))) arr2(im1(f32))"), (": ptr7(event) queue",)),
    ("83", ("queue: queue", "im1(f32): im1(f32)"), ("smp(im1(f32)): smp/im1(f32)", "event: queue")),
    ("169", ("st(sampler): bool st(sampler) st(sampler)", "arr2(event): bool arr2(event) arr2(event)"), ("sampler: bool sampler sampler", "event: bool event event")),
    ("245", ("event: event", "arr2(sampler): arr2(sampler)"), ("event: devent",)),
    ("227", (f"i32: ptr11(i32) {typed.ATOMIC}",), ()),
    ("234", (f"i32: ptr11(i32) {typed.ATOMIC} i32",), ()),
    ("69", ("i32: ptr8(i8)", "i32: ptr8(sampler)"), ("i64: ptr8(i8)", "i32: ptr7(i8)", "i32: i32")),
    ("116", ("f32: f32", "v4(f32): v4(f32)"), ("f64: f64", "i32: i32", "f32: f16", "v4(f16): v4(f16)")),
    ("118 119 205", ("i32: i32", "i8: i64", "v4(i8): v4(i32)"), ("f32: i32", "i32: f32", "v2(i32): v4(i32)", "i32: v2(i32)")),
    (
        "123",
        ("ptr5(i32): ptr8(i32) #5", "ptr4(i8): ptr8(i8) #4", "ptr7(event): ptr8(event) #7"),
        ("ptr5(i32): ptr8(i32) #4", "ptr5(i32): ptr8(i8) #5", "ptr5(i32): ptr7(i32) #5", "ptr0(i32): ptr8(i32) #0", "ptr8(i32): ptr8(i32) #8", "i32: ptr8(i32) #5"),
    ),
    ("142", ("v4(f32): v4(f32) f32",), ("v4(i32): v4(i32) i32", "f32: f32 f32", "v4(f32): v4(f32) f64", "v2(f32): v4(f32) f32", "v4(f32): v4(f32) v4(f32)")),
    ("148", ("f32: v4(f32) v4(f32)", "f64: v16(f64) v16(f64)"), ("f64: v4(f32) v4(f32)", "f32: f32 f32", "i32: v4(i32) v4(i32)", "f32: v4(f32) v2(f32)")),
    (
        "149-152",
        ("st(i32,i32): i32 i32", "st(v4(i8),v4(i8)): v4(i8) v4(i8)"),
        ("st(i32): i32 i32", "st(i32,i64): i32 i32", "i32: i32 i32", "st(f32,f32): f32 f32", "st(i32,i32): i32 i64", "st(i32,i32,i32): i32 i32", "arr2(i32): i32 i32", "fn(i32,i32): i32 i32"),
    ),
    ("154 155", ("bool: v4(bool)",), ("bool: bool", "v4(bool): v4(bool)", "bool: v4(i32)")),
    ("156-160", ("bool: f32", "v4(bool): v4(f64)"), ("bool: i32", "bool: v4(f32)", "i32: f32", "v2(bool): v4(f32)")),
    ("161-163", ("bool: f32 f32", "v4(bool): v4(f32) v4(f32)"), ("bool: f32 f64", "bool: i32 i32", "i32: f32 f32", "v2(bool): v4(f32) v4(f32)")),
    (
        "201",
        ("i32: i32 i32 i8 i64", "v4(i32): v4(i32) v4(i32) i32 i32"),
        ("i32: i32 i64 i32 i32", "f32: f32 f32 i32 i32", "i32: i32 i32 f32 i32", "v4(i32): v4(i32) v4(i32) v4(i32) i32", "i32: i32 i32 i32 bool"),
    ),
    ("202 203", ("i32: i32 i8 i32", "v2(i16): v2(i16) i32 i64"), ("i64: i32 i32 i32", "i32: i32 f32 i32", "f32: f32 i32 i32", "i32: i32 i32 v2(i32)")),
    ("204", ("i32: i32", "v4(i8): v4(i8)"), ("i32: i64", "f32: f32", "bool: bool")),
    (
        "231",
        ("i32: ptr5(i32) =1/i32 =0/i32 =0/i32 i32 i32", "i64: ptr11(i64) =1/i32 =0/i32 =0/i32 i64 i64"),
        ("i32: ptr5(i32) =1/i32 =0/i32 =0/i32 i32 i64", "i32: ptr5(i32) =1/i32 =0/i32 =0/i64 i32 i32", "f32: ptr5(f32) =1/i32 =0/i32 =0/i32 f32 f32"),
    ),
)
GROUPS = (
    (
        "259",
        ("event: =2/i32 ptr4(i32) ptr5(i32) i64 i64 event", "event: =2/i32 ptr5(v4(f32)) ptr4(v4(f32)) =9/i64 i64 event"),
        (
            *("event: =2/i32 ptr4(i32) ptr4(i32) i64 i64 event", "event: =2/i32 ptr4(i32) ptr5(i8) i64 i64 event"),
            *("event: =2/i32 ptr4(i32) ptr5(i32) i32 i64 event", "event: =2/i32 ptr4(i32) ptr5(i32) i64 i32 event"),
            *("event: =2/i64 ptr4(i32) ptr5(i32) i64 i64 event", "i32: =2/i32 ptr4(i32) ptr5(i32) i64 i64 i32"),
            *("event: =2/i32 ptr4(st(i32)) ptr5(st(i32)) i64 i64 event", "devent: =2/i32 ptr4(i32) ptr5(i32) i64 i64 devent"),
            *("event: =2/i32 ptr4(bool) ptr5(bool) i64 i64 event", "event: =2/i32 ptr4(i32) ptr5(i32) i64 i64 i32"),
            *("event: =2/i32 ptr4(i32) ptr7(i32) i64 i64 event", "event: =2/i32 i32 ptr5(i32) i64 i64 event"),
            "event: =2/i32 ptr4(i32) ptr5(i32) f64 i64 event",
        ),
    ),
    ("260", (": =2/i32 i32 ptr8(event)", ": =2/i32 =1/i32 ptr7(event)"), (": =2/i32 i64 ptr7(event)", ": =2/i32 i32 ptr7(i32)", ": =2/i64 i32 ptr7(event)", ": =2/i32 i32 event", ": =2/i32 i32 ptr7(devent)")),
    ("261 262 334 335", ("bool: =2/i32 bool", "bool: i32 bool"), ("bool: =2/i64 bool", "bool: =2/i32 i32", "i32: =2/i32 i32", "v2(bool): =2/i32 v2(bool)")),
    (
        "263",
        ("i32: =2/i32 i32 i32", "f32: =2/i32 f32 v3(i64)", "v2(bool): =2/i32 v2(bool) v2(i32)"),
        ("i32: =2/i32 i32 v4(i32)", "i32: =2/i32 i64 i32", "i32: =2/i32 i32 f32", "ptr5(i8): =2/i32 ptr5(i8) i32", "i32: =2/i64 i32 i32"),
    ),
    ("264 267 268 270 271", tuple(it.format("i32") for it in SCANNED), (*(it.format("i32") for it in NOT_SCANNED), "i32: =2/i32 #0 i64", "f32: =2/i32 #0 f32")),
    ("265 266 269", tuple(it.format("f32") for it in SCANNED), (*(it.format("f32") for it in NOT_SCANNED), "f32: =2/i32 #0 f64", "i32: =2/i32 #0 i32")),
    ("333", ("bool: =3/i32",), ("i32: =3/i32", "bool: =3/i64", "v2(bool): =3/i32")),
    ("336", ("bool: =3/i32 i32", "bool: =3/i32 v4(f32)", "bool: =3/i32 bool"), ("i32: =3/i32 i32", "bool: =3/i32 ptr5(i8)", "bool: =3/i16 i32")),
    ("337 345-348 365", HANDED, NOT_HANDED),
    ("338", ("i32: =3/i32 i32", "v4(bool): =3/i32 v4(bool)"), ("i32: =3/i32 i64", "ptr5(i8): =3/i32 ptr5(i8)", "i32: =3/i64 i32")),
    ("339", ("v4(i32): =3/i32 bool",), ("v4(i64): =3/i32 bool", "v4(i32): =3/i32 i32", "i32: =3/i32 bool", "v3(i32): =3/i32 bool")),
    ("340", ("bool: =3/i32 v4(i32)",), ("bool: =3/i32 v4(i64)", "i32: =3/i32 v4(i32)", "bool: =3/i32 v4(f32)")),
    ("341", ("bool: =3/i32 v4(i32) i8",), ("bool: =3/i32 v2(i32) i8", "i32: =3/i32 v4(i32) i32", "bool: =3/i32 v4(i32) f32")),
    ("342", ("i32: =3/i32 #0 v4(i32)", "i8: =3/i32 #2 v4(i32)"), ("i32: =3/i32 #3 v4(i32)", "f32: =3/i32 #0 v4(i32)", "i32: =3/i32 #0 i32", "v2(i32): =3/i32 #0 v4(i32)")),
    ("343 344", ("i32: =3/i32 v4(i32)",), ("f32: =3/i32 v4(i32)", "i32: =3/i32 v4(i16)", "v4(i32): =3/i32 v4(i32)")),
    ("349 351 353 354 356 357 359-361", tuple(it.format("i32") for it in CLUSTERED), (*(it.format("i32") for it in NOT_CLUSTERED), "i32: =2/i32 #0 i64", "f32: =2/i32 #0 f32")),
    ("350 352 355 358", tuple(it.format("f32") for it in CLUSTERED), (*(it.format("f32") for it in NOT_CLUSTERED), "i32: =2/i32 #0 i32")),
    ("362-364", tuple(it.format("bool") for it in CLUSTERED), (*(it.format("bool") for it in NOT_CLUSTERED), "i32: =2/i32 #0 i32")),
    ("366", ("i32: =3/i32 i32 =1/i32", "v4(f32): =3/i32 v4(f32) spec=1/i8"), ("i32: =3/i32 i32 i32", "i32: =3/i32 i64 =1/i32", "i32: =3/i32 i32 =1/f32", "ptr5(i8): =3/i32 ptr5(i8) =1/i32")),
)
PIPES = (
    ("274", ("i32: pipe0 ptr8(i32) i32 i32",), ("i32: pipe1 ptr8(i32) i32 i32", "i32: pipe0 ptr7(i32) i32 i32", "i64: pipe0 ptr8(i32) i32 i32", "i32: pipe0 ptr8(i32) i64 i32", "i32: pipe0 ptr8(i32) i32 i64", "i32: queue ptr8(i32) i32 i32", "i32: pipe2 ptr8(i32) i32 i32")),
    ("275", ("i32: pipe1 ptr8(sampler) i32 i32",), ("i32: pipe0 ptr8(i32) i32 i32", "i32: pipe1 ptr5(i32) i32 i32", "i32: pipe1 ptr8(i32) i32 f32")),
    ("276", ("i32: pipe0 reserve i32 ptr8(i32) i32 i32",), ("i32: pipe1 reserve i32 ptr8(i32) i32 i32", "i32: pipe0 event i32 ptr8(i32) i32 i32", "i32: pipe0 reserve i64 ptr8(i32) i32 i32", "i32: pipe0 reserve i32 ptr7(i32) i32 i32", "i32: pipe0 reserve i32 ptr8(i32) i64 i32", "i32: pipe0 reserve i32 ptr8(i32) i32 i64", "i8: pipe0 reserve i32 ptr8(i32) i32 i32")),
    ("277", ("i32: pipe1 reserve i32 ptr8(i32) i32 i32",), ("i32: pipe0 reserve i32 ptr8(i32) i32 i32", "i32: pipe1 reserve i32 i32 i32 i32")),
    ("278", ("reserve: pipe0 i32 i32 i32",), ("reserve: pipe1 i32 i32 i32", "i32: pipe0 i32 i32 i32", "reserve: pipe0 i64 i32 i32", "reserve: pipe0 i32 f32 i32", "reserve: pipe0 i32 i32 i8")),
    ("279", ("reserve: pipe1 i32 i32 i32",), ("reserve: pipe0 i32 i32 i32", "event: pipe1 i32 i32 i32")),
    ("280", (": pipe0 reserve i32 i32",), (": pipe1 reserve i32 i32", ": pipe0 i32 i32 i32", ": pipe0 reserve i64 i32", ": pipe0 reserve i32 i16")),
    ("281", (": pipe1 reserve i32 i32",), (": pipe0 reserve i32 i32", ": pipe1 queue i32 i32")),
    ("282", ("bool: reserve",), ("bool: event", "i32: reserve")),
    ("283 284", ("i32: pipe0 i32 i32", "i32: pipe1 i32 i32"), ("i32: i32 i32 i32", "i64: pipe0 i32 i32", "i32: pipe0 i64 i32", "i32: pipe0 i32 f32")),
    ("285", ("reserve: =2/i32 pipe0 i32 i32 i32",), ("reserve: =2/i32 pipe1 i32 i32 i32", "reserve: =2/i64 pipe0 i32 i32 i32", "i32: =2/i32 pipe0 i32 i32 i32", "reserve: =2/i32 pipe0 i32 i64 i32", "reserve: =2/i32 pipe0 i32 i32 i64")),
    ("286", ("reserve: =2/i32 pipe1 i32 i32 i32",), ("reserve: =2/i32 pipe0 i32 i32 i32", "reserve: =2/i32 pipe1 i8 i32 i32")),
    ("287", (": =2/i32 pipe0 reserve i32 i32",), (": =2/i32 pipe1 reserve i32 i32", ": =2/i64 pipe0 reserve i32 i32", ": =2/i32 pipe0 event i32 i32", ": =2/i32 pipe0 reserve i32 i64")),
    ("288", (": =2/i32 pipe1 reserve i32 i32",), (": =2/i32 pipe0 reserve i32 i32", ": =2/i32 pipe1 reserve f32 i32")),
    ("324", ("pipe0: storage", "pipe1: storage"), ("pipe0: i32", "i32: storage", "storage: storage")),
)
QUEUES = (
    ("291", ("i32: queue i32 ptr7(devent) ptr8(devent)",), ("i32: event i32 ptr7(devent) ptr8(devent)", "i64: queue i32 ptr7(devent) ptr8(devent)", "i32: queue i64 ptr7(devent) ptr8(devent)", "i32: queue i32 ptr7(event) ptr8(devent)", "i32: queue i32 ptr7(devent) devent")),
    (
        "292",
        (
            f"i32: {ENQUEUED} {OF_BLOCK}",
            f"i32: queue i32 ptr7({RANGE}) i32 ptr8(devent) ptr8(devent) {OF_BLOCK}",
            f"i32: {ENQUEUED} f/fn(void,ptr8(i8),ptr4(i8),ptr4(f32)) ptr8(i8) i32 i32 i64 ptr7(i32)",
        ),
        (
            *(f"i32: {ENQUEUED} {it}" for it in NO_BLOCKS),
            *(f"i32: {ENQUEUED} {OF_BLOCK} i32", f"i32: {ENQUEUED} f/fn(void,ptr8(i8),ptr4(i8)) ptr8(i8) i32 i32"),
            f"i32: {ENQUEUED} f/fn(void,ptr8(i8),ptr5(i8)) ptr8(i8) i32 i32 i32",
            f"i32: {ENQUEUED} f/fn(void,ptr8(i8),ptr4(i8)) ptr8(i8) i32 i32 f32",
            f"i32: {ENQUEUED} f/fn(void,ptr8(i8),ptr4(i8)) ptr8(i8) i32 i32 ptr7(f32)",
            f"i64: {ENQUEUED} {OF_BLOCK}",
            f"i32: i32 i32 {RANGE} i32 ptr8(devent) ptr7(devent) {OF_BLOCK}",
            f"i32: queue i64 {RANGE} i32 ptr8(devent) ptr7(devent) {OF_BLOCK}",
            f"i32: queue i32 i32 i32 ptr8(devent) ptr7(devent) {OF_BLOCK}",
            f"i32: queue i32 {RANGE} i64 ptr8(devent) ptr7(devent) {OF_BLOCK}",
            f"i32: queue i32 {RANGE} i32 ptr8(event) ptr7(devent) {OF_BLOCK}",
            f"i32: queue i32 {RANGE} i32 ptr8(devent) devent {OF_BLOCK}",
        ),
    ),
    (
        "293 294",
        (f"i32: {RANGE} {OF_BLOCK}", f"i32: ptr8({RANGE}) f/fn(void,ptr8(i8),ptr4(i8)) ptr8(i8) i32 i32"),
        (
            *(f"i32: {RANGE} {it}" for it in NO_BLOCKS),
            *(f"i64: {RANGE} {OF_BLOCK}", f"i32: st(i32,arr3(i32),arr3(i32),arr3(i32)) {OF_BLOCK}"),
            *(f"i32: st(i32,arr2(i64),arr3(i64),arr3(i64)) {OF_BLOCK}", f"i32: st(i64,arr3(i64),arr3(i64),arr3(i64)) {OF_BLOCK}"),
            *(f"i32: st(i32,arr3(i64),arr3(i64)) {OF_BLOCK}", f"i32: queue {OF_BLOCK}"),
            f"i32: st(i32,v3(i64),arr3(i64),arr3(i64)) {OF_BLOCK}",
        ),
    ),
    ("295 296 326", (f"i32: {OF_BLOCK}", "i32: f/fn(void,ptr5(i8),i32) ptr5(i8) i32 i32"), (*(f"i32: {it}" for it in NO_BLOCKS), f"i64: {OF_BLOCK}")),
    ("325", (f"i32: i32 {OF_BLOCK}",), (*(f"i32: i32 {it}" for it in NO_BLOCKS), f"i64: i32 {OF_BLOCK}", f"i32: i64 {OF_BLOCK}")),
    ("297 298", (": devent",), (": event", ": i32")),
    ("299", ("devent:",), ("event:", "i32:")),
    ("300", ("bool: devent",), ("bool: event", "i32: devent")),
    ("301", (": devent i32",), (": event i32", ": devent i64")),
    ("302", (": devent i32 ptr5(i64)",), (": devent i32 ptr7(i64)", ": devent i64 ptr5(i64)", ": event i32 ptr5(i64)", ": devent i32 i64")),
    ("303", ("queue:",), ("i32:", "devent:")),
    (
        "304",
        (f"{RANGE}: i64 i64 i64", f"{RANGE}: arr2(i64) arr2(i64) arr2(i64)", f"{RANGE}: arr3(i64) arr3(i64) arr3(i64)"),
        (f"{RANGE}: i32 i32 i32", f"{RANGE}: arr4(i64) arr4(i64) arr4(i64)", f"{RANGE}: i64 i64 arr2(i64)", f"ptr7({RANGE}): i64 i64 i64", f"{RANGE}: i64 i32 i64", f"{RANGE}: arr2(i32) arr2(i32) arr2(i32)", "i32: i64 i64 i64", f"{RANGE}: f64 f64 f64", f"{RANGE}: v2(i64) v2(i64) v2(i64)"),
    ),
)
OTHERS = (
    ("318", ("bool: ptr5(i32) =1/i32 =0/i32",), ("bool: ptr5(i64) =1/i32 =0/i32", "i32: ptr5(i32) =1/i32 =0/i32", "bool: ptr5(i32) =1/i64 =0/i32", "bool: i32 =1/i32 =0/i32")),
    ("319", (": ptr4(i32) =1/i32 =0/i32",), (": ptr4(i8) =1/i32 =0/i32", ": ptr4(i32) =1/i32 =0/i64", ": i32 =1/i32 =0/i32")),
    ("321", ("i32: ptr5(st(i32,f32))", "i32: ptr7(bool)", "i32: ptr7(ptr5(event))"), ("i32: ptr7(event)", "i64: ptr5(i32)", "i32: i32", "i32: ptr0(opaque)")),
    ("328", ("barrier: i32",), ("barrier: i64", "i32: i32")),
    ("329", (": barrier =1/i32 =0/i32",), (": i32 =1/i32 =0/i32", ": barrier =1/i64 =0/i32", ": barrier =1/i32 =0/i8")),
    (
        "400",
        ("st2(i32): st(i32)", "st(i32): st2(i32)", "arr3(st2(i32)): arr3(st(i32))", "st(st2(i32),i8): st(st(i32),i8)", "st2(ptr5(i8)): st(ptr5(i8))"),
        ("st(i32): st(i32)", "st2(i64): st(i32)", "st2(i32,i32): st(i32)", "i32: i32", "arr2(st2(i32)): arr3(st(i32))", "arr3(i64): arr3(i32)", "st(i32): i32", "arr3(i32): st(i32)", "st(st2(i32),i8): st(st(i32),i16)"),
    ),
    ("401 402", ("bool: ptr5(i8) ptr5(i8)",), ("bool: ptr5(i8) ptr7(i8)", "bool: i32 i32", "i32: ptr5(i8) ptr5(i8)")),
    ("403", ("i64: ptr5(i8) ptr5(i8)", "i32: ptr7(event) ptr7(event)"), ("f32: ptr5(i8) ptr5(i8)", "i64: ptr5(i8) ptr5(i16)", "i64: i64 i64")),
    (
        "4450-4452",
        ("i32: v4(i8) v4(i8)", "i64: v2(i32) v2(i32)", "i8: v4(i8) v4(i8)", "i32: i32 i32 #0", "i8: i32 i32 #0"),
        ("i8: v4(i16) v4(i16)", "i32: i32 i32", "i32: v4(i8) v4(i8) #0", "i32: i64 i64 #0", "f32: v4(i8) v4(i8)", "i32: v4(i8) v4(i16)", "i32: v4(f32) v4(f32)", "v4(i32): v4(i8) v4(i8)"),
    ),
    ("4453-4455", ("i32: v4(i8) v4(i8) i32", "i32: i32 i32 i32 #0"), ("i32: v4(i8) v4(i8) i64", "i32: i32 i32 i32", "i8: v4(i16) v4(i16) i8", "i32: i32 i32 i64 #0", "i32: v4(i8) v4(i8) v4(i8)")),
)
ROWS = (
    ("Y2", DECLARED, TYPES),
    ("Y4", DECLARED, CONSTANTS),
    ("Y5", DECLARED, VARIABLES),
    ("Y5", DECORATIONS, DECORATED),
    ("Y5", MODES, MODED),
    *(("Y5", BLOCK, it) for it in (IMAGES, OPERATIONS, GROUPS, PIPES, QUEUES, OTHERS)),
)


# Where spirv-val says something else (docs/COMPARED.md). Of these instructions it asks few types or none; of others it
# accepts these cases.
UNASKED = frozenset(typed.opcodes_in("69 259-271 274-288 291-304 321 324 333-366 4450-4455"))
ACCEPTED = {
    1: {"smp(im1(f32)):"},
    12: {"i32: e/NonSemantic.Any #7"},
    28: {"t/smp(im1(f32)) =1/i32"},
    30: {"t/smp(im1(f32))"},
    32: {"#7 t/smp(im1(f32))"},
    33: {"t/smp(im1(f32))", "t/void t/smp(im1(f32))"},
    45: {"sampler: #0 #2 #0"},
    83: {"smp(im1(f32)): smp/im1(f32)"},
    86: {"smp(im2(f32)): im1(f32) sampler"},
    88: {NOT_SAMPLED[0], "v4(f32): smp/im1(f32) v2(f32) #4098 f32", "v4(i32): smp/im1(i32) v2(f32) #12290 f32"},
    98: {"v4(f32): im1(f32) v2(i32) #4096"},
    99: {": im1(f32) v2(i32) v4(f32) #8192"},
    331: {": kernel #31", ": kernel #37 =1/f32", ": kernel #38 =1/i32 =2/i32 null/v2(i32)"},
    332: {": var/ptr5(i32) #46 t/i32", ": var/ptr5(i32) #46 undef/i32"},
    5632: {": var/ptr5(i32) #19", ": var/ptr5(i32) #44 #4"},
    5633: {": t/st(i32) #0 #19", ": t/st(i32) #0 #44 #4"},
}
# And what it says of cases that hold.
REFUSED = (
    "Capability StorageImageMultisample is required",
    "ConstantPipeStorage must appear in a block",
    "Invalid extended instruction import",
    "Result id of OpDecorationGroup can only be targeted by",
    "Expected Sample for Image with MS 0",
    "Image Operand Lod can only be used with",
    "Debug info extension instructions other than DebugScope",
    "has not been defined",
)


def cases():
    """Each case of each row, for each of its opcodes: the rule, the opcode, the case, where it stands, and whether it
    holds."""
    for rule, where, rows in ROWS:
        for opcodes, holds, breaks in rows:
            for opcode in typed.opcodes_in(opcodes):
                for case in chain(holds, breaks):
                    yield rule, opcode, case, where, case in holds


def due(rule, place, holds):
    """The verdict on a module of a case."""
    return "valid" if holds else f"fault {rule} inst {place[0]} word {place[1]}"


def name_of(known, rule, opcode, case, where, holds):
    """What a case is called."""
    return f"opencl: {rule} {'holds' if holds else 'breaks'}: {known[opcode]} {case} {where}"


def written():
    """The modules by what their cases are called."""
    known = names()
    return {name_of(known, *it): module(*it[:4])[0] for it in cases()}


def names():
    """The name of each opcode."""
    return {code: entry["opname"] for code, entry in grammar_in(GRAMMAR).entries.items()}


def read(_program, _folder):
    """None where the second reading says of each module what is due."""
    grammar, known, wrong = grammar_in(GRAMMAR), names(), []
    for case in cases():
        content, place = module(*case[:4])
        wanted, got = due(case[0], place, case[4]), verdict(grammar, content, profile=Profile.OPENCL)
        wrong += [] if got == wanted else [f"  {name_of(known, *case)}: {got}, and not {wanted}"]
    return "\n".join(wrong) or None


def may_differ(opcode, case, holds, said):
    """Whether spirv-val may say something else of a case, where it accepts what breaks a row, or refuses with what it
    says."""
    if holds:
        return any(it in said for it in REFUSED)
    return opcode in UNASKED or case in ACCEPTED.get(opcode, ())


def read_beside(_program, folder):
    """None where spirv-val accepts the modules that hold and refuses those that break, but where it may differ."""
    known, path, wrong = names(), folder / "module.spv", []
    for rule, opcode, case, where, holds in cases():
        content, _ = module(rule, opcode, case, where)
        path.write_bytes(content)
        words = ["spirv-val", "--target-env", f"spv1.{content[5]}", path]
        said, status = joined(words, folder)
        said = said.decode(errors="replace")
        if (status == 0) != holds and not may_differ(opcode, case, holds, said):
            wrong.append(f"  {name_of(known, rule, opcode, case, where, holds)}: {said or 'accepted'}")
    return "\n".join(wrong) or None


def told(content, wanted):
    """The check of the program's verdict on a module."""

    def check(program, folder):
        path = folder / "module.spv"
        path.write_bytes(content)
        words = ["check", *Profile.OPENCL.flags, "--grammar", GRAMMAR, path]
        answer = Answer(f"{wanted}\n".encode(), b"", 0 if wanted == "valid" else 1)
        return difference(answer, run(program, words, folder))

    return check


def checks():
    """Each case, and what the second reading and spirv-val say of all."""
    known = names()
    found = [
        Check("opencl: the second reading of the table of types", frozenset(), read),
        Check("opencl: spirv-val of the table of types", frozenset(), read_beside, frozenset({"spirv-val"})),
    ]
    for case in cases():
        content, place = module(*case[:4])
        check = told(content, due(case[0], place, case[4]))
        found.append(Check(name_of(known, *case), frozenset({"opencl"}), check))
    return found
