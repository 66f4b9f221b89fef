"""The text for reading, from docs/PROFILE.md, 'The text for reading'."""

import html
import json
import math
import re
import struct
from functools import lru_cache
from pathlib import Path

from .extended import HEAD, called, is_id, kinds_of
from .facts import FUNCTION, FUNCTION_END, LABEL
from .text import visible

COLUMN = 48
NAME, IMPORT, EXTENDED, ENTRY, CONSTANT, SPEC_CONSTANT, FLOAT = 5, 11, 12, 15, 43, 50, 22
BRANCH, CONDITIONAL, SWITCH = 249, 250, 251
OPENCL = "OpenCL.std"
OPENCL_FILE = Path("/usr/include/spirv/unified1/extinst.opencl.std.100.grammar.json")
# The opcodes of each section; any other opcode outside functions is of the section of types and constants.
MODES, DECORATIONS = {16, 331}, {71, 72, 73, 74, 75, 332, 5632, 5633}
SECTIONS = ({17}, {10}, {11}, {14}, {15}, MODES, {2, 3, 4, 5, 6, 7, 330}, DECORATIONS)
DECLARED = len(SECTIONS)
# How many octets a name takes in a page at most, and how many of its own are shown: the first of these that fit.
MOST_OF_NAME, TOLD_OF_NAME = 40, (40, 20, 10, 6)
# How floats of a width are packed, and those that their decimal value reads back as.
FORMS = {16: ("<e", "<f"), 32: ("<f", "<f"), 64: ("<d", "<d")}
# The sorts of operands that are ids: of an OpExtInst whose ids are looked at an Argument or a Mention each, and its
# literals an Id.
IDS = ("Type", "Result", "Id", "Argument", "Mention")
UNQUOTED = re.compile(r'"(?:[^"\\]|\\.)*"|;')
VERDICT = "; fault "
DIM, RED, PLAIN = "\x1b[2m", "\x1b[31m", "\x1b[0m"


@lru_cache(maxsize=None)
def opencl_names():
    """The names of the instructions of OpenCL.std by their numbers, by Khronos' file; none where that is not there."""
    if not OPENCL_FILE.is_file():
        return {}
    tree = json.loads(OPENCL_FILE.read_text(encoding="utf-8"))
    return {it["opcode"]: it["opname"] for it in tree["instructions"]}


def beginning(name, at):
    """The whole characters in so many octets of a name."""
    octets = name.encode()
    while at < len(octets) and octets[at] & 0xC0 == 0x80:
        at -= 1
    return octets[:at].decode()


def room(text):
    """How many octets a text takes in a page."""
    return len(html.escape(visible(text)).replace("&#x27;", "&#39;").encode())


def short(name):
    """A name as a comment tells it: without control characters, and of a long one the beginning."""
    fitting = [it for it in TOLD_OF_NAME if room(beginning(name, it)) <= MOST_OF_NAME]
    told = beginning(name, fitting[0])
    return visible(told) + ".." * (told != name)


def section_of(opcode):
    """The section that an opcode has outside of functions."""
    return next((at for at, opcodes in enumerate(SECTIONS) if opcode in opcodes), DECLARED)


def header(words):
    """The five lines of the header."""
    version = f"{words[1] >> 16}.{words[1] >> 8 & 0xFF}"
    return [
        "; SPIR-V",
        f"; Version: {version}",
        f"; Generator: {words[2]}",
        f"; Bound: {words[3]}",
        f"; Schema: {words[4]}",
    ]


def uncommented(line):
    """A line without its comment and the spaces before that."""
    for found in UNQUOTED.finditer(line):
        if found[0] == ";":
            return line[: found.start()].rstrip(" ")
    return line


def shown_of(text):
    """The text of `show` that a text for reading has: without the line of the verdict, comments, the spaces before them
    and empty lines, behind the header."""
    lines = text.split("\n")
    assert lines.pop() == "", "the last line has no line feed"
    lines = lines[lines[0].startswith(VERDICT) :]
    return [*lines[:5], *filter(None, map(uncommented, lines[5:]))]


class Decimal:
    """A note that is the decimal value of a number of a float type: any text that reads back as it will do. Of what is
    no number it has the bits."""

    def __init__(self, low, high, width):
        form, self.wide = FORMS[width]
        octets = (high << 32 | low).to_bytes(8, "little")
        self.value = struct.unpack(form, octets[: width // 8])[0]
        self.bits = octets[: width // 8][::-1].hex()

    def is_told_by(self, text):
        """Whether a text is this number."""
        if math.isnan(self.value):
            return text == f"NaN 0x{self.bits}"
        return struct.pack(self.wide, float(text)) == struct.pack(self.wide, self.value)


class Reading:
    """What `annotate` writes of a module whose facts are known, with the lines that `explain` writes of it."""

    def __init__(self, facts, printed=()):
        self.facts, self.insts = facts, facts.insts
        self.names, self.sets = {}, {}
        for inst in self.insts:
            if inst.opcode == NAME:
                self.names.setdefault(inst.operands[0][1], inst.operands[1][1])
        for of, number in facts.first.items():
            inst = self.insts[number]
            if inst.opcode == IMPORT:
                self.sets[of] = inst.operands[1][1]
        self.came_from = self.branches()
        self.finding = list(printed) if printed and printed[0] != "valid" else []
        self.at = self.finding and int(re.match(r"fault \S+ inst (\d+)", self.finding[0])[1])

    def function_of(self):
        """Of each instruction the number of the OpFunction that it is of, by opcodes alone, or None."""
        found, function = [], None
        for number, inst in enumerate(self.insts):
            function = number if inst.opcode == FUNCTION else function
            found.append(function)
            function = None if inst.opcode == FUNCTION_END else function
        return found

    def branches(self):
        """Of each label the labels of the blocks that branch to it, in order, once where one comes again at once."""
        found, block = {}, None
        for inst in self.insts:
            if inst.opcode in (LABEL, FUNCTION, FUNCTION_END):
                block = inst.result if inst.opcode == LABEL else None
            elif inst.opcode in (BRANCH, CONDITIONAL, SWITCH) and block is not None:
                ids = [it[1] for it in inst.operands if it[0] == "Id"]
                for to in ids[inst.opcode != BRANCH :]:
                    sources = found.setdefault(to, [])
                    if sources[-1:] != [block]:
                        sources.append(block)
        return found

    def literals(self, number):
        """The places, behind the number of an extended instruction, of the literals that are read as ids."""
        call = called(self.sets, self.insts[number])
        if call is None or any(it[0] not in IDS for it in call[2]):
            return set()
        kinds = kinds_of(*call[:2])
        return {at for at in range(len(call[2])) if not is_id(kinds, at)}

    def ids(self, number, sorts=IDS):
        """The ids among the operands of an instruction, of these sorts, in order."""
        literals = {len(HEAD) + at for at in self.literals(number)}
        operands = enumerate(self.insts[number].operands)
        return [it[1] for at, it in operands if it[0] in sorts and at not in literals]

    def shown(self, number):
        """The line of an instruction: that of `show`, and literals without `%`."""
        words = self.facts.shown(number).split(" ")
        for at in self.literals(number):
            # (`%9 = OpExtInst %3 %1 171` stands before them)
            words[6 + at] = words[6 + at].lstrip("%")
        return " ".join(words)

    def notes(self, number):
        """The notes on an instruction, in order."""
        inst, found = self.insts[number], []
        entry = [it[1] for it in inst.operands[1:3]] if inst.opcode == ENTRY else []
        for of in dict.fromkeys(self.ids(number)) if inst.opcode != NAME else ():
            # (an OpEntryPoint that has the name of its function is not followed by it)
            if of in self.names and [of, self.names[of]] != entry:
                found.append(f"%{of} {short(self.names[of])}")
        if inst.opcode == EXTENDED and self.sets.get(inst.operands[2][1]) == OPENCL:
            name = opencl_names().get(inst.operands[3][1])
            found += [name] if name else []
        if inst.opcode in (CONSTANT, SPEC_CONSTANT) and inst.type in self.facts.first:
            declared = self.facts.definition(inst.type)
            if declared.opcode == FLOAT and declared.operands[1][1] in FORMS:
                found.append(Decimal(*inst.operands[2][1:3], declared.operands[1][1]))
        if inst.opcode == LABEL and self.facts.first.get(inst.result) == number:
            sources = self.came_from.get(inst.result, ())
            found += [" ".join(["from", *(f"%{it}" for it in sources)])] if sources else []
        return found

    def begins(self, number, functions):
        """Whether an empty line stands before an instruction: before a function, and outside of functions before a
        section that is not that of the instruction before."""
        opcode = self.insts[number].opcode
        if opcode in (FUNCTION, LABEL):
            return opcode == FUNCTION
        before = section_of(self.insts[number - 1].opcode) if number else None
        return functions[number] is None and section_of(opcode) != before

    def line(self, number):
        """An instruction with its comment: the parts of the line, of which a Decimal stands for several texts."""
        shown = self.shown(number)
        room = " " * max(COLUMN - len(shown.encode()), 1)
        parts = [f"{shown}{room}; inst {number} word {self.insts[number].word}"]
        for note in self.notes(number):
            parts += [", ", note]
        return parts

    def lines(self, asked=None):
        """All lines, each as its parts, that of the verdict first; where a function is asked for those of it alone
        behind the header."""
        functions = self.function_of()
        found = [[f"; {line}"] for line in self.finding[:1]]
        found += [[line] for line in header(self.facts.words)]
        for number in range(len(self.insts)):
            of = functions[number]
            if asked is None or of is not None and self.insts[of].result == asked:
                found += [[""]] if self.begins(number, functions) else []
                found += [self.line(number), *self.marks(number)]
        return found + (self.marks(len(self.insts)) if asked is None else [])

    def marks(self, number):
        """The lines of the fault that stand below an instruction."""
        return [[f"; ^ {line}"] for line in self.finding] if self.finding and number == self.at else []


def is_line(parts, line):
    """Whether a line has these parts."""
    pattern = "".join("(.+?)" if isinstance(it, Decimal) else re.escape(it) for it in parts)
    found = re.fullmatch(pattern, line)
    decimals = [it for it in parts if isinstance(it, Decimal)]
    return found is not None and all(it.is_told_by(text) for it, text in zip(decimals, found.groups()))


def differences(wanted, lines):
    """None if lines have these parts, else the first that differs."""
    for at, (parts, line) in enumerate(zip(wanted, lines), 1):
        if not is_line(parts, line):
            due = "".join(it if isinstance(it, str) else "<a number>" for it in parts)
            return f"  line {at}\n  wanted: {due}\n  got:    {line}"
    return None if len(wanted) == len(lines) else f"  {len(lines)} lines, and not {len(wanted)}"
