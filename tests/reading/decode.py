"""Words, header and instructions: rules W2 to W8 and I1 to I12."""

import struct
from dataclasses import dataclass, field
from functools import cached_property
from typing import List, Optional, Tuple

from .profiles import Profile

MOST_BYTES = 16_777_216
GREATEST_BOUND = 4_194_303
INT, FLOAT, SWITCH = 21, 22, 251


class Broken(Exception):
    """A rule is broken: its code, and where it names them an instruction and a word, and the number of an operand with
    the kind due there."""

    def __init__(self, rule, inst=None, word=None, operand=None, due=None):
        super().__init__(rule)
        place = "" if inst is None else f" inst {inst} word {word}"
        self.line = f"fault {rule}{place}"
        self.inst, self.word, self.operand, self.due = inst, word, operand, due


@dataclass
class Inst:
    """An instruction. An operand is a pair or triple that begins with its sort. What is found of its uses is kept."""

    opcode: int
    operands: List[Tuple]
    word: int
    used: Optional[List[Tuple]] = field(default=None, init=False, repr=False, compare=False)

    def first(self, sort):
        """What the first operand of a sort holds, if there is one."""
        return next((it[1] for it in self.operands if it[0] == sort), None)

    @cached_property
    def result(self):
        return self.first("Result")

    @cached_property
    def type(self):
        return self.first("Type")


class Grammar:
    """The first kind of each name, entry of each opcode, and enumerant of each value; and what names look up: of an
    instruction its opcode, of an enumerant of a kind its value."""

    def __init__(self, tree):
        self.kinds = {}
        for kind in tree["operand_kinds"]:
            self.kinds.setdefault(kind["kind"], kind)
        self.entries, self.opcode_of = {}, {}
        for entry in tree["instructions"]:
            self.entries.setdefault(entry["opcode"], entry)
            self.opcode_of.setdefault(entry["opname"], entry["opcode"])
        self.enumerants, self.value_of = {}, {}
        for name, kind in self.kinds.items():
            values, names = self.enumerants.setdefault(name, {}), self.value_of.setdefault(name, {})
            for value, it in self.values(kind):
                values.setdefault(value, it)
                names.setdefault(it["enumerant"], value)

    @staticmethod
    def values(kind):
        """The enumerants of a kind that are in the table, each after its value."""
        for it in kind.get("enumerants", ()) if "Enum" in kind["category"] else ():
            is_mask = kind["category"] == "BitEnum"
            value = int(it["value"], 16) if is_mask else it["value"]
            is_odd = any("quantifier" in parameter for parameter in it.get("parameters", ()))
            if not is_odd and not (is_mask and value & (value - 1)):
                yield value, it


def words_of(content, profile=Profile.OWN):
    """The words of a module's bytes."""
    if len(content) > MOST_BYTES:
        raise Broken("W8")
    if len(content) < 20:
        raise Broken("W2")
    if len(content) % 4:
        raise Broken("W3")
    order = {b"\3\2\x23\7": "<", b"\7\x23\2\3": ">"}.get(content[:4])
    if order is None:
        raise Broken("W4")
    words = struct.unpack(f"{order}{len(content) // 4}I", content)
    if words[1] not in profile.versions:
        raise Broken("W5")
    if words[4] != 0:
        raise Broken("W6")
    if not 1 <= words[3] <= GREATEST_BOUND:
        raise Broken("W7")
    return words


class Reader:
    """Reads the operands of one instruction."""

    def __init__(self, grammar, words, before, number, at, end):
        self.grammar, self.words, self.before, self.number = grammar, words, before, number
        self.opcode = words[at] & 0xFFFF
        self.at, self.end = at + 1, end
        self.operands, self.due = [], None

    def fail(self, rule, word):
        raise Broken(rule, self.number, word, len(self.operands), self.due)

    def pattern(self, items):
        for item in items:
            quantifier = item.get("quantifier")
            while not (quantifier and self.at == self.end):
                self.kind(item["kind"])
                if quantifier != "*":
                    break

    def kind(self, name, in_pair=False):
        kind = self.grammar.kinds[name]
        if kind["category"] == "Composite":
            for base in kind["bases"]:
                self.kind(base, name == "PairLiteralIntegerIdRef")
            return
        self.due = name
        if self.at == self.end:
            self.fail("I4", self.end)
        if kind["category"] == "Id":
            sort = {"IdResultType": "Type", "IdResult": "Result"}.get(name, "Id")
            self.operands.append((sort, self.next()))
        elif kind["category"] == "Literal":
            self.literal(name, in_pair)
        elif kind["category"] == "ValueEnum":
            self.value(name)
        else:
            self.mask(name)

    def next(self):
        self.at += 1
        return self.words[self.at - 1]

    def literal(self, name, in_pair):
        if name == "LiteralString":
            self.text()
        elif name == "LiteralContextDependentNumber":
            self.wide(next((it[1] for it in self.operands if it[0] == "Type"), None))
        elif name == "LiteralInteger" and in_pair and self.opcode == SWITCH:
            first = self.operands[0] if self.operands else (None, None)
            is_id = first[0] in ("Type", "Result", "Id")
            self.wide(self.last(first[1], lambda it: it.type) if is_id else None)
        elif name in ("LiteralInteger", "LiteralFloat", "LiteralExtInstInteger"):
            self.operands.append(("Word", self.next()))
        else:
            self.fail("I12", self.at)

    def last(self, result, what):
        """What the last instruction before, whose result this is, has."""
        found = [it for it in self.before if it.result == result and result is not None]
        return what(found[-1]) if found else None

    def wide(self, of_type):
        width = self.last(of_type, self.width)
        if width is None:
            self.fail("I11", self.at)
        if width > 32 and self.at + 1 == self.end:
            self.fail("I4", self.end)
        low = self.next()
        self.operands.append(("Number", low, self.next() if width > 32 else 0, 1 + (width > 32)))

    @staticmethod
    def width(inst):
        sorts = [it[0] for it in inst.operands[:2]]
        if inst.opcode not in (INT, FLOAT) or sorts != ["Result", "Word"]:
            return None
        width = inst.operands[1][1]
        return width if 1 <= width <= 64 else None

    def text(self):
        octets = struct.pack(f"<{self.end - self.at}I", *self.words[self.at : self.end])
        length = octets.find(b"\0")
        if length < 0:
            self.fail("I8", self.at)
        size = length // 4 + 1
        if octets[length : 4 * size].strip(b"\0"):
            self.fail("I9", self.at + size - 1)
        try:
            self.operands.append(("Text", octets[:length].decode()))
        except UnicodeDecodeError:
            self.fail("I10", self.at)
        self.at += size

    def value(self, name):
        word = self.words[self.at]
        if word not in self.grammar.enumerants[name]:
            self.fail("I6", self.at)
        self.operands.append(("Value", name, self.next()))
        self.pattern(self.grammar.enumerants[name][word].get("parameters", ()))

    def mask(self, name):
        word, known = self.words[self.at], self.grammar.enumerants[name]
        bits = [1 << bit for bit in range(32) if word >> bit & 1]
        if any(bit not in known for bit in bits):
            self.fail("I7", self.at)
        self.operands.append(("Mask", name, self.next()))
        for bit in bits:
            self.pattern(known[bit].get("parameters", ()))


def instructions(grammar, words):
    """The instructions of a module's words."""
    found, at = [], 5
    while at < len(words):
        number, count, opcode = len(found), words[at] >> 16, words[at] & 0xFFFF
        for rule, is_broken in (
            ("I1", count == 0),
            ("I2", at + count > len(words)),
            ("I3", opcode not in grammar.entries),
        ):
            if is_broken:
                raise Broken(rule, number, at)
        reader = Reader(grammar, words, found, number, at, at + count)
        reader.pattern(grammar.entries[opcode].get("operands", ()))
        if reader.at < reader.end:
            raise Broken("I5", number, reader.at, len(reader.operands), "nothing")
        found.append(Inst(opcode, reader.operands, at))
        at += count
    return found
