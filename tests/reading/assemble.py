"""The module of a text as `spv show` writes it: names, ids, numbers and texts, of instructions in the grammar file."""

import re
import struct

from .decode import FLOAT, INT, SWITCH
from .profiles import VERSION_1_6

MAGIC = 0x07230203
TOKEN = re.compile(r'"(?:[^"\\]|\\.)*"|[^\s"]+')
ESCAPE = re.compile(r"\\(.)")
BOUND = "; Bound: "
VERSION = re.compile(r"; Version: 1\.([0-6])")


class Unread(Exception):
    """A line that this reads no instruction from."""


def octets(token):
    """The octets of a text."""
    return ESCAPE.sub(lambda found: "\n" if found[1] == "n" else found[1], token[1:-1]).encode()


def number_words(token, width):
    """The words of a number of a width in bits."""
    number = int(token, 0) & ((1 << (32 if width <= 32 else 64)) - 1)
    return [number] if width <= 32 else [number & 0xFFFFFFFF, number >> 32]


class Line:
    """The operands of a line as they are read, token by token."""

    def __init__(self, writer, entry, result, tokens):
        self.writer, self.entry, self.result, self.tokens = writer, entry, result, tokens
        self.words, self.type, self.first = [], None, None

    def read(self):
        """The words of the instruction."""
        for operand in self.entry.get("operands", ()):
            quantifier = operand.get("quantifier")
            while self.tokens or quantifier is None:
                self.take(operand["kind"])
                if quantifier != "*":
                    break
        if self.tokens:
            raise Unread(f"too much: {' '.join(self.tokens)}")
        return [len(self.words) + 1 << 16 | self.entry["opcode"], *self.words]

    def token(self):
        """The next token."""
        if not self.tokens:
            raise Unread("an operand is missing")
        return self.tokens.pop(0)

    def take(self, name):
        """Takes an operand of a kind."""
        kind = self.writer.grammar.kinds[name]
        category = kind["category"]
        if name == "IdResult":
            self.words.append(self.result)
        elif category == "Id":
            self.take_id(name)
        elif category == "Composite":
            for base in kind["bases"]:
                self.take(base)
        elif category in ("ValueEnum", "BitEnum"):
            self.take_values(name, self.token().split("|"))
        else:
            self.take_literal(name)

    def take_id(self, name):
        """Takes an id, and keeps it where it is the type or the first one."""
        of = int(self.token().lstrip("%"))
        self.words.append(of)
        self.type = of if name == "IdResultType" else self.type
        self.first = of if self.first is None else self.first

    def take_values(self, name, names):
        """Takes a value or the bits of a mask by their names, and then their parameters, from the lowest up."""
        enumerants = self.writer.grammar.enumerants[name]
        found = sorted(value for value, it in enumerants.items() if it["enumerant"] in names)
        if names[0].startswith("#"):
            found = [int(names[0][1:])]
        elif len(found) != len(set(names)):
            raise Unread(f"no value of {name}: {'|'.join(names)}")
        self.words.append(sum(found))
        for value in found:
            for parameter in enumerants.get(value, {}).get("parameters", ()):
                self.take(parameter["kind"])

    def take_literal(self, name):
        """Takes a text or a number."""
        if name == "LiteralString":
            content = octets(self.token())
            content += bytes(4 - len(content) % 4)
            self.words += struct.unpack(f"<{len(content) // 4}I", content)
        elif name == "LiteralContextDependentNumber":
            self.words += number_words(self.token(), self.writer.widths[self.type])
        elif name == "LiteralInteger" and self.entry["opcode"] == SWITCH:
            self.words += number_words(self.token(), self.writer.widths[self.writer.types[self.first]])
        else:
            self.words += number_words(self.token(), 32)


class Writer:
    """The words of instructions, with what is known of ids so far: the widths of types, and the types of values."""

    def __init__(self, grammar):
        self.grammar, self.widths, self.types = grammar, {}, {}
        self.named = {}
        for entry in grammar.entries.values():
            self.named.setdefault(entry["opname"], entry)

    def instruction(self, text):
        """The words of a line."""
        tokens = TOKEN.findall(text)
        result = None
        if tokens[1:2] == ["="]:
            result, tokens = int(tokens[0].lstrip("%")), tokens[2:]
        if not tokens or tokens[0] not in self.named:
            raise Unread(f"no instruction: {text}")
        entry = self.named[tokens[0]]
        line = Line(self, entry, result, tokens[1:])
        words = line.read()
        if entry["opcode"] in (INT, FLOAT):
            self.widths[result] = words[2]
        self.types[result] = line.type
        return words


def assembled(grammar, lines):
    """The bytes of a module, the lowest byte of a word first, of the lines of its text. Lines of a header may stand
    first: of these `; Version: 1.N` and `; Bound: N` are read. Without them the version is 1.6, and the bound the
    greatest result and one."""
    writer = Writer(grammar)
    insts = [writer.instruction(line) for line in lines if not line.startswith(";")]
    said = [int(line[len(BOUND) :]) for line in lines if line.startswith(BOUND)]
    bound = said[0] if said else 1 + max((of for of in writer.types if of is not None), default=0)
    minors = [int(found[1]) for found in map(VERSION.fullmatch, lines) if found]
    version = 0x00010000 | minors[0] << 8 if minors else VERSION_1_6
    words = [MAGIC, version, 0, bound, 0, *(word for inst in insts for word in inst)]
    return struct.pack(f"<{len(words)}I", *words)
