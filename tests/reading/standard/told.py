"""The lines that `explain` has of the rules O behind the place, and whether they are true."""

from functools import cached_property

from ..forms import STRUCT
from . import blocks, decorations, entries, limits, values, versions
from .module import (
    DECORATE,
    ENTRY_POINT,
    GROUP_DECORATE,
    GROUP_MEMBER_DECORATE,
    LINKAGE_ATTRIBUTES,
    OF_IDS,
    OF_MEMBERS,
    Module,
    is_import,
)

OPERAND, PAIR = "operand;", "operand;other operand;"
# By code: each key with a semicolon after it.
TOLD = {
    "O1": "on the way;",
    "O2": "operand;defined;",
    "O3 O8 O9": "earlier;",
    "O4": f"({OPERAND}|{PAIR}|defined;calls;used by;)",
    "O5 O6 O12 O14 O15 O16 O17 O20 O23": OPERAND,
    "O7": "(operand;(given;)?|earlier;)",
    "O10": "(operand;|earlier;)",
    "O11 O18 O19": f"({OPERAND}|{PAIR})",
    "O13": "(operand;|implied;)",
    "O21": "(opcode;|operand;(bit;)?)(since;)?(needs one of;)?",
    "O22": "most;",
}
# The capability that may not be implied, of rules that tell such a one.
IMPLIED = {"O13": values.VULKAN_MEMORY_MODEL[0]}


def passed(module, at):
    """The limits that an instruction passes."""
    inst = module.insts[at]
    if at in limits.too_long(module):
        yield limits.CHARACTERS
    if at in limits.too_deep(module):
        yield limits.MEMBERS if len(inst.operands) - 1 > limits.MEMBERS else limits.DEPTH
    if at in limits.too_many(module):
        yield limits.CASES if inst.opcode == limits.SWITCH else limits.INDEXES
    if at in limits.too_many_together(module):
        is_inside = module.types.places.function[at] is not None
        yield limits.MODES_OF_ONE if inst.opcode in limits.MODES else limits.LOCALS if is_inside else limits.GLOBALS


class ToldOfStandard:
    """Whether the lines of a rule O are true: what judge.py asks of the fault that it judges."""

    @cached_property
    def module(self):
        """The module as the rules O look at it."""
        return Module(self.facts.types, self.facts.local, self.facts.words[1])

    @property
    def other(self):
        """The number of the other operand that is told, None where there is none."""
        text = self.one("other operand")
        return int(text.split(" ")[0]) if text else None

    def id_at(self, at):
        """The id that an operand is, None where it is none."""
        sort, of = self.inst.operands[at][:2]
        return of if sort in ("Id", "Type", "Result") else None

    # Blocks, values and operands.

    def is_on_the_way(self, text):
        body, own = self.facts.body_of(self.number)
        higher = int(text[1:])
        order = list(body.blocks)
        is_higher = text == f"%{higher}" and order.index(higher) > order.index(own)
        return is_higher and own in blocks.reached(body) and own not in blocks.reached(body, higher)

    def fails_O2(self, at):
        of = self.facts.uses(self.number)[at][0]
        return of in self.module.used_locals(self.inst) and self.facts.first[of] >= self.number

    def is_other_operand(self, text):
        at, _, rest = text.partition(" ")
        at, own = int(at), self.operand()
        if rest not in self.told(at):
            return False
        if self.code == "O11":
            return at - 1 not in self.built_in() and 0 < at < len(self.inst.operands)
        if self.code == "O18":
            return (own, at) == (3, 4)
        return own < at and self.inst.operands[own] == self.inst.operands[at]

    def fails_O14(self, at):
        module, inst = self.module, self.inst
        words = [(word, module.value(of)) if word in "cm" else (word, None) for of, word in module.with_words(inst)]
        word, value = words[at]
        if value is None:
            return inst.opcode == values.EXCHANGE and at == 5 and values.are_unequal(words[4][1], None)
        if word == "c":
            is_first = at == next(place for place, it in enumerate(words) if it[0] == "c")
            is_of_group = is_first and inst.opcode in values.OF_GROUPS
            return value > values.LAST_SCOPE or is_of_group and value not in (values.WORKGROUP, values.SUBGROUP)
        if values.are_semantics_broken(value):
            return True
        if inst.opcode == values.EXCHANGE and at == 5:
            return values.are_unequal(words[4][1], value)
        is_clear = inst.opcode == values.FLAG_CLEAR
        return is_clear and values.has_bits(value, values.ACQUIRE | values.ACQUIRE_RELEASE)

    def is_first_value(self, at):
        """Whether an operand is the first value of its instruction."""
        words = [word for _, word in self.module.with_words(self.inst)]
        return at == words.index("v")

    def fails_O15(self, at):
        return self.is_first_value(at)

    def fails_O16(self, at):
        return self.is_first_value(at)

    def fails_O17(self, at):
        return at == 2

    def fails_O18(self, at):
        return at == (2 if self.inst.opcode == blocks.LOOP_MERGE else 3)

    def fails_O19(self, at):
        sort, low, high = (*self.inst.operands[at], None, None)[:3]
        if sort != "Number" or self.other is not None:
            return sort == "Number"
        types = self.facts.types
        return (low | high << 32) >> types.rest(types.type_of(self.inst.operands[0][1]))[0] != 0

    def fails_O20(self, at):
        return at == 0

    def fails_O23(self, at):
        return at == 2

    # Interfaces.

    def fails_O4(self, at):
        """From 1.4 on an id that stands twice in the interface, before a variable of another storage class."""
        module, of = self.module, self.id_at(at)
        if module.minor >= entries.OF_ALL:
            return at in self.interface() and self.other in self.interface()
        return at in self.interface() and self.other is None and not entries.is_asked(module, of)

    def interface(self):
        """The ids of the interface of the entry point that is told: of the number of each operand the id."""
        return {at: it[1] for at, it in enumerate(self.inst.operands) if at > 2}

    def is_lacking(self, number):
        """Whether an instruction is a variable that is to be in that interface, if it is used, and is not."""
        of, module = self.facts.insts[number].result, self.module
        return module.is_global(of) and entries.is_asked(module, of) and of not in self.interface().values()

    def ends_of_calls(self):
        """The functions that calls may begin with, that of the entry point that is told, and the one that they lead to,
        that of the instruction that is told to use the variable."""
        user = self.facts.places.function[self.numbered(self.one("used by"))]
        return {self.inst.operands[1][1]}, self.facts.insts[user].result

    def is_used_by(self, text):
        variable = self.facts.insts[self.numbered(self.one("defined"))].result
        return variable in [of for of, _ in self.facts.uses(self.numbered(text)).values()]

    # Entry points, declarations and decorations.

    def fails_O5(self, at):
        return at > 1 and self.inst.operands[at][0] == "Id"

    def fails_O6(self, at):
        return at == 1

    def fails_O12(self, at):
        return at == 0

    def fails_O13(self, at):
        return at == 1 and self.inst.operands[1][1] == 8

    def lies_badly(self, of, decoration):
        """Whether a decoration may not stand on an id."""
        fits = decorations.FITS.get(decoration)
        return fits is not None and not fits(self.module, of)

    def fails_O7(self, at):
        inst, module = self.inst, self.module
        if inst.opcode == GROUP_DECORATE:
            return at > 0 and bool(self.one("given"))
        if self.one("given"):
            return False
        if inst.opcode in OF_MEMBERS:
            return at == 2 and inst.operands[2][2] in decorations.NEVER_ON_MEMBERS
        if at == 0:
            of = inst.operands[0][1]
            return not module.is_group(of) and self.lies_badly(of, inst.operands[1][2])
        return inst.opcode == DECORATE and at > 1 and inst.operands[at][0] == "Id"

    def given_by(self, number):
        """The decoration that an instruction gives to the group of the one that is told, None where it gives none."""
        other = self.facts.insts[number]
        is_of_group = other.opcode in OF_IDS and other.operands[0][1] == self.inst.operands[0][1]
        return other.operands[1][2] if is_of_group else None

    def is_given(self, text):
        number = self.numbered(text)
        decoration = None if number is None else self.given_by(number)
        return decoration is not None and self.lies_badly(self.inst.operands[self.operand()][1], decoration)

    def gives_import(self, number, of):
        """Whether an instruction imports a variable."""
        inst, module = self.facts.insts[number], self.module
        if inst.opcode == GROUP_DECORATE:
            group, *targets = [it[1] for it in inst.operands]
            lists = module.of_groups[group].get(LINKAGE_ATTRIBUTES, [])
            return of in targets and any(map(is_import, lists))
        is_linked = inst.opcode in OF_IDS and inst.operands[0][1] == of and inst.operands[1][2] == LINKAGE_ATTRIBUTES
        return is_linked and is_import(inst.operands[2:])

    def speaks_against(self, number):
        """Whether an instruction is what `earlier` may tell of a rule O."""
        inst, other, module = self.inst, self.facts.insts[number], self.module
        if self.code == "O3":
            is_alike = other.operands[0] == inst.operands[0] and other.operands[2] == inst.operands[2]
            return number < self.number and other.opcode == ENTRY_POINT and is_alike
        if self.code == "O7":
            is_of_members = inst.opcode == GROUP_MEMBER_DECORATE
            return is_of_members and self.given_by(number) in decorations.NEVER_ON_MEMBERS
        if self.code == "O8":
            both = (decorations.RESTRICT, decorations.ALIASED)
            places = [[module.decorations.get((of, it)) for it in both] for of, _ in module.decorations]
            return any(None not in it and (min(it), max(it)) == (number, self.number) for it in places)
        if self.code == "O9":
            is_entry = other.opcode == ENTRY_POINT
            return is_entry and module.decorations.get((other.operands[1][1], LINKAGE_ATTRIBUTES)) == self.number
        return self.gives_import(number, inst.result)

    def fails_O10(self, at):
        return at == 2 and self.inst.operands[2][2] == decorations.INPUT

    def built_in(self, of=None):
        """The members of a struct that are built in, those of the one that is told."""
        of = self.inst.result if of is None else of
        found = self.module.member_decorations
        return {member for struct, member, it in found if struct == of and it == decorations.BUILT_IN}

    def fails_O11(self, at):
        if self.other is not None:
            return at - 1 in self.built_in()
        of = self.id_at(at)
        return at > 0 and self.facts.types.form(of) == STRUCT and bool(self.built_in(of))

    # Versions and limits.

    def lacked(self):
        """What is told as lacking, a kind and a number; None where it is a form."""
        if self.one("opcode"):
            return versions.OPCODE, self.inst.opcode
        sort, *what = self.inst.operands[self.operand()]
        if sort == "Value":
            return tuple(what)
        return (what[0], self.bit()) if sort == "Mask" and self.one("bit") else None

    def row(self):
        """The row of what is told as lacking: the minor version from which on it is there, and the extensions."""
        return versions.ROWS.get(self.lacked(), (0, frozenset()))

    def lacks_opcode(self):
        """Whether the version has not the opcode."""
        opcode = self.inst.opcode
        is_gone = self.module.minor > versions.LAST.get(opcode, versions.NEVER)
        return is_gone or versions.is_missing(self.module, (versions.OPCODE, opcode))

    def fails_O21(self, at):
        lacked = self.lacked()
        if lacked is not None:
            return versions.is_missing(self.module, lacked)
        opcode = self.inst.opcode
        if opcode in versions.COPIES:
            is_form = self.inst.operands[at][0] == "Mask"
        else:
            is_form = at == {versions.SELECT: 0, versions.IMPORT: 1}.get(opcode)
        return is_form and versions.is_late_use(self.module, self.inst)

    def is_since(self, text):
        minor, _ = self.row()
        return 0 < minor < versions.NEVER and text == f"1.{minor}"

    def are_extensions(self, text):
        told, (_, names) = text.split(" "), self.row()
        return bool(names) and len(told) == len(names) and set(told) == names

    def lacks_of_version(self, keys):
        """What should be told of what the version lacks: which version has it, and which extensions have it."""
        minor, names = self.row()
        found = ["no line since"] if 0 < minor < versions.NEVER and "since" not in keys else []
        return found + (["no line needs one of"] if names and "needs one of" not in keys else [])

    def is_limit(self, text):
        """Whether a text is a limit that the instruction passes."""
        return text in map(str, passed(self.module, self.number))
