"""Shapes, layout and ids: rules P1, L1, L2 and D1 to D5."""

import re
from collections import defaultdict
from functools import lru_cache
from itertools import chain

from . import opencl
from .decode import Broken
from .profiles import Profile

# Opcodes, whether a block's body may have them, and the shape.
SHAPES = (
    ("0", True, ""),
    ("1", True, "T R"),
    ("2 4", False, "S"),
    ("3", False, "SourceLanguage W s? S?"),
    ("5", False, "a S"),
    ("6", False, "a W S"),
    ("7", False, "R S"),
    ("8", False, "s W W"),
    ("10", False, "S"),
    ("11", False, "R S"),
    ("12", True, "T R e W x*"),
    ("14", False, "AddressingModel MemoryModel"),
    ("15", False, "ExecutionModel f S g*"),
    ("16", False, "f ExecutionMode+"),
    ("17", False, "Capability"),
    ("19 20", False, "R"),
    ("21", False, "R W W"),
    ("22", False, "R W"),
    ("23", False, "R t W"),
    ("28", False, "R t v"),
    ("30", False, "R t*"),
    ("31", False, "R S"),
    ("32", False, "R StorageClass t"),
    ("33", False, "R t t*"),
    ("39", False, "t StorageClass"),
    ("41 42 46 48 49", False, "T R"),
    ("43 50", False, "T R N"),
    ("44 51", False, "T R v*"),
    ("54", False, "T R FunctionControl t"),
    ("55", False, "T R"),
    ("56 253 255 317", False, ""),
    ("57", True, "T R f v*"),
    ("59", False, "T R StorageClass v?"),
    ("61", True, "T R v [MemoryAccess+]"),
    ("62 63", True, "v v [MemoryAccess+]"),
    ("64", True, "v v v [MemoryAccess+]"),
    ("65 66", True, "T R v v*"),
    ("67 70", True, "T R v v v*"),
    ("71", False, "a Decoration+"),
    ("72", False, "a W Decoration+"),
    ("77", True, "T R v v"),
    ("78", True, "T R v v v"),
    ("79 82", True, "T R v v W*"),
    ("80", True, "T R v*"),
    ("81", True, "T R v W*"),
    ("83 109-115 117 120-122 124 126 127 168 200", True, "T R v"),
    ("128-141 164-167 170-191 194-199", True, "T R v v"),
    ("169", True, "T R v v v"),
    ("224", True, "c c m"),
    ("225", True, "c m"),
    ("227 232 233", True, "T R v c m"),
    ("228", True, "v c m v"),
    ("229 234-242", True, "T R v c m v"),
    ("230", True, "T R v c m m v v"),
    ("245", False, "T R (v l)*"),
    ("246", False, "l l LoopControl+"),
    ("247", False, "l SelectionControl"),
    ("248", False, "R"),
    ("249", False, "l"),
    ("250", False, "v l l W*"),
    ("251", False, "v l (N l)*"),
    ("254", False, "v"),
    ("256 257", True, "v W"),
    ("330", False, "S"),
)
# The kinds of operands that are masks; those that are named otherwise are values.
MASKS = ("FunctionControl", "MemoryAccess", "LoopControl", "SelectionControl", "ImageOperands")
SORTS = {"T": "Type", "R": "Result", "W": "Word", "N": "Number", "S": "Text"}
ROLES = dict(zip("tvfselgacm", "type value function string set label global any value value".split()))
# The sorts of the operands behind the number of an OpExtInst: where they are looked at, those of OpenCL.std are
# arguments, which are used as values, and those of any other set mentions, which are no uses.
UNSEEN = ("Id", "Argument", "Mention")
LINES = (8, 317)
ENDS = (249, 250, 251, 253, 254, 255)
OF_PROFILE = (
    {17},
    {10},
    {11},
    {14},
    {15},
    {16},
    {7, 3, 4, 2},
    {5, 6},
    {330},
    {71, 72},
    {19, 20, 21, 22, 23, 28, 30, 31, 32, 33, 39, 41, 42, 43, 44, 46, 48, 49, 50, 51, 59, 1},
)
SECTIONS = tuple(it | opencl.MORE_IN_SECTIONS.get(at, set()) for at, it in enumerate(OF_PROFILE))
MODEL, DECLARED = 3, opencl.DECLARED
BEGIN = ("section", 0)


def opcodes_in(text):
    """The opcodes of a row, written like `128 130 137-139`."""
    for part in text.split():
        first, _, last = part.partition("-")
        yield from range(int(first), int(last or first) + 1)


PROFILE = {code for codes, _, _ in SHAPES for code in opcodes_in(codes)}
ALL_SHAPES = (*SHAPES, *opencl.SHAPES)
SHAPE_OF = {code: shape for codes, _, shape in ALL_SHAPES for code in opcodes_in(codes)}
IN_BODY = {code for codes, is_body, _ in ALL_SHAPES if is_body for code in opcodes_in(codes)}


def opcodes_of(profile):
    """The opcodes that have a row, by how far a module is looked at."""
    return SHAPE_OF.keys() if profile >= Profile.OPENCL else PROFILE


# What a letter of a shape is called.
CALLED = dict(zip("TRWNSx", ("result type", "result", "word", "number", "string", "id")))
CALLED.update(ROLES)


def row_text(opcode, profile=Profile.OWN):
    """The operands of the row of an opcode, in words."""
    if opcode not in opcodes_of(profile):
        return "none"
    texts = []
    for part in parts_of(SHAPE_OF[opcode]):
        words = ["file" if part == "s?" else CALLED.get(it, it) for it in words_in(part)]
        said = ", ".join(words)
        if part.endswith("*"):
            said = f"any number of: {said}"
        elif part.endswith(("?", "]")):
            said = f"{said} or nothing"
        texts += [said] + ["any others"] * ("+" in part) + ["any number of: value"] * part.endswith(VALUES)
    return ", ".join(texts) or "no operands"


# The end of a part that is a mask or nothing, with any number of values behind the mask.
VALUES = " v*]"


@lru_cache(maxsize=None)
def parts_of(shape):
    """The parts of a shape: what stands in brackets, and each word by itself."""
    return re.findall(r"\(.*?\)\*|\[.*?\]|\S+", shape)


@lru_cache(maxsize=None)
def words_in(part):
    """The words of a part of a shape, without those values."""
    return part.replace(VALUES, "").strip("()[]*?").replace("+", "").split()


def letter(operand, wanted):
    """Whether an operand is what one word of a shape asks for."""
    if wanted in SORTS:
        return operand[0] == SORTS[wanted]
    if wanted == "x":
        return operand[0] in UNSEEN
    if len(wanted) == 1:
        return operand[0] == "Id"
    name = wanted.rstrip("+")
    return operand[0] == ("Mask" if name in MASKS else "Value") and operand[1] == name


def role_of(wanted, operand):
    """The role of an operand that one word of a shape asks for, None where it is no use."""
    if wanted == "x":
        return "value" if operand[0] == "Argument" else None
    if wanted == "+":
        return "any" if operand[0] == "Id" else None
    return "type" if wanted == "T" else ROLES.get(wanted)


def taken(shape, operands):
    """The word of the shape that each operand stands for, `+` of those that it lets follow; or None if they differ."""
    found, at = [], 0
    for part in parts_of(shape):
        words = words_in(part)
        is_many, is_optional, took = part.endswith("*"), part[-1] in "*?]", False
        while is_many or not took:
            now = operands[at : at + len(words)]
            if len(now) < len(words) or not all(map(letter, now, words)):
                break
            found += words
            at, took = at + len(words), True
        if not took and not is_optional:
            return None
        while "+" in part and took and at < len(operands):
            if operands[at][0] in ("Type", "Result"):
                return None
            found.append("+")
            at += 1
        while part.endswith(VALUES) and took and at < len(operands) and letter(operands[at], "v"):
            found.append("v")
            at += 1
    return found if at == len(operands) else None


def uses_by(shape, operands):
    """The roles of the operands by a shape, None for those that are no use; or None if they differ."""
    words = taken(shape, operands)
    return None if words is None else list(map(role_of, words, operands))


def uses(inst):
    """The ids that an instruction uses, each with its role."""
    if inst.used is None:
        roles = uses_by(SHAPE_OF[inst.opcode], inst.operands)
        inst.used = [(it[1], role) for it, role in zip(inst.operands, roles) if role]
    return inst.used


def mentions(inst):
    """The ids that an instruction mentions: those of an extended instruction of a set that is not OpenCL.std, where
    they are looked at."""
    return [it[1] for it in inst.operands if it[0] == "Mention"]


def check_shapes(insts, profile=Profile.OWN):
    known = opcodes_of(profile)
    for number, inst in enumerate(insts):
        if inst.opcode not in known or uses_by(SHAPE_OF[inst.opcode], inst.operands) is None:
            raise Broken("P1", number, inst.word)


def after_section(section, opcode):
    if opcode in LINES:
        return ("section", DECLARED) if section >= MODEL else None
    if opcode == 54:
        return ("parameters", False) if section >= MODEL else None
    next_one = next((at for at, it in enumerate(SECTIONS) if opcode in it), None)
    if next_one is None or next_one < section or next_one == section == MODEL:
        return None
    return ("section", next_one) if section >= MODEL or next_one <= MODEL else None


def in_block(state, opcode):
    if opcode == {"variables": 59, "phis": 245}.get(state):
        return (state, True)
    if opcode in LINES:
        return (state, True)
    if opcode in IN_BODY:
        return ("body", True)
    if opcode in ENDS:
        return ("ended", True)
    return {246: ("merge", (249, 250)), 247: ("merge", (250, 251))}.get(opcode)


def after(state, opcode, profile=Profile.OWN):
    """What comes after an instruction of the layout, or None where it can't stand there."""
    name, what = state
    if opcode == opencl.EXTENDED and profile >= Profile.OPENCL:
        return state if name in opencl.PASSED else after_section(what, LINES[0]) if name == "section" else None
    if name == "section":
        return after_section(what, opcode)
    if name == "merge":
        return ("ended", True) if opcode in what else None
    if name in ("variables", "phis", "body"):
        return in_block(name, opcode)
    if opcode in LINES:
        return state
    moves = {
        "parameters": {55: state, 248: ("variables", True), **({} if what else {56: ("between", False)})},
        "ended": {248: ("phis", True), 56: ("between", True)},
        "between": {54: ("parameters", what)},
    }
    return moves[name].get(opcode)


# The kinds of what may come, where there are more opcodes than this; an opcode that is in none is one by itself, and
# OpExtInst where it alone of the instructions of a block may come.
MOST_NAMES = 8
EXT_INST = 12
KINDS = {
    "a source": {7, 3, 4, 2},
    "a name": {5, 6},
    "a decoration": SECTIONS[opencl.DECORATIONS],
    "a type or constant": SECTIONS[DECLARED] - {59, 1},
    "a variable": {59},
    "an instruction of a block": IN_BODY - {1},
    "the end of a block": set(ENDS),
    "a line": set(LINES),
}
ALONE = {
    1: "OpUndef",
    10: "OpExtension",
    11: "OpExtInstImport",
    14: "OpMemoryModel",
    15: "OpEntryPoint",
    16: "OpExecutionMode",
    331: "OpExecutionModeId",
    EXT_INST: "OpExtInst",
    17: "OpCapability",
    54: "OpFunction",
    55: "OpFunctionParameter",
    56: "OpFunctionEnd",
    245: "OpPhi",
    246: "OpLoopMerge",
    247: "OpSelectionMerge",
    248: "OpLabel",
    330: "OpModuleProcessed",
}


def kind_of(opcode):
    """The kind of an opcode that may come, in words."""
    return next((kind for kind, opcodes in KINDS.items() if opcode in opcodes), None) or ALONE[opcode]


def kinds_of(opcodes):
    """The kinds of opcodes that may come, each once, in words."""
    is_alone = not IN_BODY.intersection(opcodes) - {1, EXT_INST}
    told = (ALONE[EXT_INST] if it == EXT_INST and is_alone else kind_of(it) for it in opcodes)
    return [*dict.fromkeys(told)]


def may_end(state):
    """Whether a module may end at a state of the layout."""
    return state[0] == "between" or state[0] == "section" and state[1] >= MODEL


def may_come(state, profile=Profile.OWN):
    """The opcodes that may come at a state of the layout, in order."""
    return [it for it in sorted(opcodes_of(profile)) if after(state, it, profile) is not None]


def check_layout(insts, profile=Profile.OWN):
    state = BEGIN
    for number, inst in enumerate(insts):
        state = after(state, inst.opcode, profile)
        if state is None:
            raise Broken("L1", number, inst.word)
    if not may_end(state):
        last = insts[-1] if insts else None
        raise Broken("L2", len(insts), end_of(last))


def end_of(inst):
    """The word after an instruction, 5 where there is none."""
    if inst is None:
        return 5
    size = 1
    for it in inst.operands:
        size += {"Number": it[-1], "Text": len(str(it[1]).encode()) // 4 + 1}.get(it[0], 1)
    return inst.word + size


class Places:
    """Where instructions stand: the number of their OpFunction, and whether in section 7a or 9."""

    def __init__(self, insts):
        self.function, self.section = [], []
        inside, seen, section = None, False, 0
        for number, inst in enumerate(insts):
            if inst.opcode == 54:
                inside, seen = number, True
            self.function.append(inside)
            if not seen:
                found = DECLARED if inst.opcode in (*LINES, opencl.EXTENDED) else None
                section = max(section, found or next(at for at, it in enumerate(SECTIONS) if inst.opcode in it))
            self.section.append(11 if seen else section)
            if inst.opcode == 56:
                inside = None


def check_ids(insts, bound):
    definitions, places = defaultdict(list), Places(insts)
    for number, inst in enumerate(insts):
        if inst.result is not None:
            definitions[inst.result].append(number)
    local = defaultdict(set)
    for result, numbers in definitions.items():
        for number in numbers:
            function = places.function[number]
            if function is not None and insts[number].opcode not in (54, 56):
                local[result].add(function)
    pointed = {}
    for number, inst in enumerate(insts):
        named, mentioned = [it for it, _ in uses(inst)], mentions(inst)
        own = [inst.result] if inst.result is not None else []
        if any(not 1 <= it < bound for it in chain(own, named, mentioned)):
            raise Broken("D1", number, inst.word)
        if own and definitions[inst.result][0] < number:
            raise Broken("D2", number, inst.word)
        if any(not definitions[it] for it in chain(named, mentioned)):
            raise Broken("D3", number, inst.word)
        for at, it in enumerate(named):
            is_ahead = inst.opcode == 39 or inst.opcode == 30 and pointed.get(it, number) < number
            if places.section[number] in (6, DECLARED) and definitions[it][0] >= number:
                if not (places.section[number] == DECLARED and is_ahead):
                    raise Broken("D4", number, inst.word)
        for it in named:
            if places.section[number] >= DECLARED and local[it]:
                if places.function[number] not in local[it]:
                    raise Broken("D5", number, inst.word)
        if inst.opcode == 39:
            pointed.setdefault(named[0], number)
    return {result: numbers[0] for result, numbers in definitions.items()}, places, local
