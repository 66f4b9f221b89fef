"""The text of an instruction, from docs/PROFILE.md, 'The text of a module'."""

import re

from .decode import FLOAT, SWITCH

PLAIN = re.compile("[A-Za-z0-9_]+")
CONTROL = re.compile("[\x00-\x1f\x7f-\x9f]")
ESCAPES = {'"': '\\"', "\\": "\\\\", "\n": "\\n"}


def visible(text):
    """A text with each byte of a control character of it as `\\xNN`."""
    return CONTROL.sub(lambda found: "".join(f"\\x{it:02x}" for it in found[0].encode()), text)


def is_plain(name, number, known):
    """Whether a name is plain: it has letters, digits and `_` alone, and looks up the number that it is shown for."""
    return PLAIN.fullmatch(name) is not None and known.get(name) == number


class Text:
    """The text of each instruction of a list, by its number."""

    def __init__(self, grammar, insts):
        self.grammar, self.insts = grammar, insts

    def name(self, opcode):
        """The name of an instruction."""
        name = self.grammar.entries[opcode]["opname"]
        return name if is_plain(name, opcode, self.grammar.opcode_of) else f"#{opcode}"

    def value(self, kind, value):
        """The plain name of a value of an enum, None where it has none."""
        known = self.grammar.enumerants[kind].get(value)
        name = known["enumerant"] if known else ""
        return name if is_plain(name, value, self.grammar.value_of[kind]) else None

    def mask(self, kind, value):
        """The names of the bits of a mask, or the number of the whole."""
        names = [self.value(kind, it) for it in bits_of(value) or [0]]
        return f"#{value}" if None in names else "|".join(names)

    def last(self, number, of):
        """The last instruction before one with this result, or None."""
        return next((it for it in reversed(self.insts[:number]) if it.result == of), None)

    def is_float(self, number):
        """Whether the numbers of an instruction are of a float type: of its result type, or those of a switch of the
        type that its first operand has."""
        inst = self.insts[number]
        of = inst.type
        if inst.opcode == SWITCH:
            first = self.last(number, inst.operands[0][1])
            of = first.type if first else None
        declared = None if of is None else self.last(number, of)
        return declared is not None and declared.opcode == FLOAT

    def operand(self, number, at):
        """The text of an operand of an instruction."""
        sort, *what = self.insts[number].operands[at]
        if sort in ("Type", "Result", "Id"):
            return f"%{what[0]}"
        if sort == "Text":
            return '"' + "".join(ESCAPES.get(it, it) for it in what[0]) + '"'
        if sort == "Number":
            low, high, count = what
            return f"0x{high << 32 | low:0{8 * count}x}" if self.is_float(number) else str(high << 32 | low)
        if sort == "Mask":
            return self.mask(*what)
        return (self.value(*what) or f"#{what[1]}") if sort == "Value" else str(what[0])

    def inst(self, number):
        """The text of an instruction."""
        inst = self.insts[number]
        result = "" if inst.result is None else f"%{inst.result} = "
        rest = [self.operand(number, at) for at, it in enumerate(inst.operands) if it[0] != "Result"]
        return " ".join([result + self.name(inst.opcode), *rest])


def bits_of(mask):
    """The set bits of a mask by their values, the smallest first."""
    return [1 << at for at in range(32) if mask >> at & 1]
