"""What is known of a module up to the first rule that it breaks."""

from collections import defaultdict
from functools import cached_property

from .decode import Broken, instructions, words_of
from .extended import check_miscalls, opened
from .flow import bodies, check_flow
from .opencl_std import check_types_of_calls
from .order import SHAPE_OF, Places, check_ids, check_layout, check_shapes, uses_by
from .profiles import Profile
from .standard import check_standard
from .text import Text, visible
from .types import Types, check_types

FUNCTION, PARAMETER, FUNCTION_END, LABEL = 54, 55, 56, 248
ENDS = (249, 250, 251, 253, 254, 255)


def open_at(insts, number):
    """The results of the OpFunction and the OpLabel of which an instruction is, each None where it is of none: a
    function goes from its OpFunction to its OpFunctionEnd, and a block from its OpLabel, in a function, to its end.
    With the number of instructions it is what is open at the end of the module."""
    function = block = None
    for at, inst in enumerate(insts[: number + 1]):
        before = insts[at - 1].opcode if at else None
        if before == FUNCTION_END:
            function = None
        if before in ENDS or inst.opcode in (FUNCTION, FUNCTION_END):
            block = None
        if inst.opcode == FUNCTION:
            function = inst
        elif inst.opcode == LABEL and function is not None:
            block = inst
    if number == len(insts) and insts:
        function = None if insts[-1].opcode == FUNCTION_END else function
        block = None if insts[-1].opcode in ENDS else block
    return function, block


class Facts:
    """A module: its words and instructions as far as they can be read, and what the stages that it passes tell.
    `broken` is its first fault, None where it is valid. Where the operands of extended instructions are looked at, the
    instructions are the opened ones, and the texts of them those that words spell."""

    def __init__(self, grammar, content, profile=Profile.OWN):
        self.grammar, self.content, self.profile = grammar, content, profile
        self.words, self.insts, self.broken = (), [], None
        try:
            self.read()
        except Broken as broken:
            self.broken = broken

    def read(self):
        """Goes through the stages, up to the one that a rule breaks."""
        self.words = words_of(self.content, self.profile)
        self.insts = self.decoded()
        self.insts = opened(self.insts) if self.profile >= Profile.EXTENDED else self.insts
        check_shapes(self.insts, self.profile)
        check_layout(self.insts, self.profile)
        self.places = Places(self.insts)
        self.local = self.locals()
        _, _, local = check_ids(self.insts, self.bound)
        self.types = Types(self.grammar, self.insts, self.first, self.places)
        check_types(self.grammar, self.insts, self.first, self.places)
        check_flow(self.insts, local, self.words[1])
        if self.profile >= Profile.EXTENDED:
            check_miscalls(self.insts)
        if self.profile >= Profile.OPENCL:
            check_types_of_calls(self.types)
            check_standard(self.types, local, self.words[1])

    def decoded(self):
        """The instructions. Where one is refused those before it are kept."""
        try:
            found = instructions(self.grammar, self.words)
        except Broken as broken:
            self.insts = instructions(self.grammar, self.words[: self.place_of(broken.inst)])
            self.note()
            raise
        self.insts = found
        self.note()
        return found

    def note(self):
        """Keeps the text of each instruction, and the first one that has an id as its result."""
        self.text, self.first = Text(self.grammar, self.insts), {}
        for number, inst in enumerate(self.insts):
            if inst.result is not None:
                self.first.setdefault(inst.result, number)

    def place_of(self, number):
        """The place of the first word of an instruction, by the words that those before it count."""
        at = 5
        for _ in range(number):
            at += self.words[at] >> 16
        return at

    def locals(self):
        """Of each id the numbers of the OpFunctions to which it is local."""
        found = defaultdict(set)
        for inst, function in zip(self.insts, self.places.function):
            if inst.result is not None and function is not None and inst.opcode != FUNCTION:
                found[inst.result].add(function)
        return found

    @property
    def bound(self):
        """The bound of ids."""
        return self.words[3]

    @cached_property
    def bodies(self):
        """The definitions of the module."""
        return list(bodies(self.insts))

    def uses(self, number):
        """The operands of an instruction that are uses: of the number of each the id and its role."""
        inst = self.insts[number]
        roles = uses_by(SHAPE_OF[inst.opcode], inst.operands)
        return {at: (it[1], role) for at, (it, role) in enumerate(zip(inst.operands, roles)) if role}

    def named(self, number):
        """The operands of an instruction that must be in range and defined, uses and mentions: of the number of each
        the id."""
        used = {at: of for at, (of, _) in self.uses(number).items()}
        mentioned = {at: it[1] for at, it in enumerate(self.insts[number].operands) if it[0] == "Mention"}
        return {**used, **mentioned}

    def definition(self, of):
        """The first instruction that has an id as its result."""
        return self.insts[self.first[of]]

    def shown(self, number):
        """An instruction as it stands in a line."""
        return visible(self.text.inst(number))

    def body_of(self, number):
        """The definition that an instruction is of, and the label of its block."""
        for body in self.bodies:
            for label, numbers in body.blocks.items():
                if number in numbers:
                    return body, label
        return None, None
