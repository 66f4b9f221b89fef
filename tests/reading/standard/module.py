"""A module whose rules of all other stages are unbroken, as the rules of stage O look at it."""

from functools import cached_property

from ..flow import bodies
from ..forms import INT
from ..order import SHAPE_OF, taken, uses

CONSTANT, CONSTANT_NULL, VARIABLE = 43, 46, 59
EXTENSION, ENTRY_POINT = 10, 15
DECORATE, MEMBER_DECORATE, GROUP, GROUP_DECORATE, GROUP_MEMBER_DECORATE = 71, 72, 73, 74, 75
DECORATE_ID, DECORATE_STRING, MEMBER_DECORATE_STRING = 332, 5632, 5633
OF_IDS, OF_MEMBERS = (DECORATE, DECORATE_ID, DECORATE_STRING), (MEMBER_DECORATE, MEMBER_DECORATE_STRING)
LINKAGE_ATTRIBUTES, IMPORT = 41, 1


class Module:
    """The instructions with their types, definitions and blocks. `number` and `at` are the place of an instruction
    among all."""

    def __init__(self, types, local, version):
        self.types, self.insts, self.local = types, types.insts, local
        self.minor = version >> 8 & 0xFF
        self.bodies = list(bodies(self.insts))

    def definition(self, of):
        """The instruction that has an id as its result."""
        return self.types.definition(of)

    def all_of(self, *opcodes):
        """The instructions with these opcodes, each behind its number."""
        return [(number, inst) for number, inst in enumerate(self.insts) if inst.opcode in opcodes]

    def is_implied(self, *capabilities):
        """Whether one of these capabilities is."""
        return any(it in self.types.implied for it in capabilities)

    def is_global(self, of):
        """Whether an id is a variable: an OpVariable of section 9."""
        return self.definition(of).opcode == VARIABLE and self.types.places.function[self.types.definitions[of]] is None

    def storage_class(self, of):
        """The storage class of a pointer's type, of a value."""
        return self.types.pointer(self.types.type_of(of))[0]

    def values(self, inst):
        """The operands of an instruction that its shape has as values, those of scopes and semantics apart."""
        return [of for of, word in self.with_words(inst) if word == "v"]

    @staticmethod
    def with_words(inst):
        """What each operand of an instruction holds, with the word of its shape."""
        return [(it[1], word) for it, word in zip(inst.operands, taken(SHAPE_OF[inst.opcode], inst.operands))]

    def value(self, of):
        """The value of an id, None where it has none."""
        found = self.definition(of)
        if found.opcode not in (CONSTANT, CONSTANT_NULL) or self.types.form(found.type) != INT:
            return None
        return self.types.value(of) if found.opcode == CONSTANT else 0

    @cached_property
    def extensions(self):
        """The names of all OpExtensions."""
        return {inst.operands[0][1] for _, inst in self.all_of(EXTENSION)}

    @cached_property
    def entry_points(self):
        """The functions of entry points."""
        return {inst.operands[1][1] for _, inst in self.all_of(ENTRY_POINT)}

    @cached_property
    def block_of(self):
        """Of each instruction of a block, by its number, the label of the block."""
        return {at: label for body in self.bodies for label, numbers in body.blocks.items() for at in numbers}

    def is_group(self, of):
        return self.definition(of).opcode == GROUP

    @cached_property
    def of_groups(self):
        """Of each decoration group its decorations: of each the operands behind it, as each of its instructions has
        them."""
        found = {inst.result: {} for _, inst in self.all_of(GROUP)}
        for _, inst in self.all_of(*OF_IDS):
            of = inst.operands[0][1]
            if of in found:
                found[of].setdefault(inst.operands[1][2], []).append(inst.operands[2:])
        return found

    @cached_property
    def decorations(self):
        """Of each id and each decoration that it has the number of the least instruction by which it has it."""
        found = {}
        for number, inst in self.all_of(*OF_IDS, GROUP_DECORATE):
            if inst.opcode == GROUP_DECORATE:
                group, *targets = [it[1] for it in inst.operands]
                had = [(of, it) for it in self.of_groups[group] for of in targets]
            else:
                had = [(inst.operands[0][1], inst.operands[1][2])]
            for of, it in had:
                if not self.is_group(of):
                    found.setdefault((of, it), number)
        return found

    @cached_property
    def member_decorations(self):
        """The same of each member, an id and a number."""
        found = {}
        for number, inst in self.all_of(*OF_MEMBERS, GROUP_MEMBER_DECORATE):
            if inst.opcode == GROUP_MEMBER_DECORATE:
                group, *pairs = [it[1] for it in inst.operands]
                had = [(*pair, it) for it in self.of_groups[group] for pair in zip(pairs[::2], pairs[1::2])]
            else:
                had = [(inst.operands[0][1], inst.operands[1][1], inst.operands[2][2])]
            for each in had:
                found.setdefault(each, number)
        return found

    @cached_property
    def imported(self):
        """The ids that have LinkageAttributes with the type Import."""
        found = set()
        for _, inst in self.all_of(*OF_IDS, GROUP_DECORATE):
            target, *others = inst.operands
            if inst.opcode == GROUP_DECORATE:
                lists = self.of_groups[target[1]].get(LINKAGE_ATTRIBUTES, [])
                found.update(it[1] for it in others if any(map(is_import, lists)))
            elif others[0][2] == LINKAGE_ATTRIBUTES and not self.is_group(target[1]) and is_import(others[1:]):
                found.add(target[1])
        return found

    def used_locals(self, inst):
        """The local values that an instruction uses."""
        return [of for of, _ in uses(inst) if self.local[of] and self.definition(of).type is not None]


def is_import(behind):
    """Whether what stands behind LinkageAttributes is a text, and then Import."""
    return len(behind) > 1 and behind[0][0] == "Text" and behind[1] == ("Value", "LinkageType", IMPORT)
