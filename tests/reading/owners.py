"""Whose the types are that the lines of Y2, Y4 and Y5 tell, how many parts they have, and the names of functions.

From docs/PROFILE.md, 'The lines of explain'.
"""

from .text import visible

NAME, ENTRY_POINT, FUNCTION = 5, 15, 54
ABOVE = ", part of a type above"
# The sorts of operands that are ids; those that an OpExtInst has after its number are, wherever they are looked at.
IDS = ("Id", "Argument", "Mention")
# The conditions at which the number of parts of the type that is found is reported.
SIZED = ("Chosen", "Within", "Count", "ComponentCount", "Filled")


def type_at(facts, operand):
    """The type of an operand: a result type itself, of a function its function type, of another id the type that it is
    declared with, or a type itself."""
    if operand[0] == "Type":
        return operand[1]
    if operand[0] not in IDS:
        return None
    found = facts.first.get(operand[1])
    if found is None:
        return operand[1]
    inst = facts.insts[found]
    of = inst.operands[-1][1] if inst.opcode == FUNCTION else inst.type
    return operand[1] if of is None else of


def is_function(facts, operand):
    """Whether an operand is the id of an OpFunction."""
    found = facts.first.get(operand[1]) if operand[0] == "Id" else None
    return found is not None and facts.insts[found].opcode == FUNCTION


def places(facts, number, of):
    """The numbers of the operands of an instruction that are of a type."""
    return [at for at, it in enumerate(facts.insts[number].operands) if type_at(facts, it) == of]


def owners(facts, number, found):
    """What is told of operands of an instruction, by their numbers: of the first eight, and how many more there are."""
    told = "".join(f", of operand {at} {facts.text.operand(number, at)}" for at in found[:8])
    return told + (f", and {len(found) - 8} more" if len(found) > 8 else "")


def size(facts, of):
    """How many parts a type has, None where it has none or they are not told."""
    if of not in facts.first or facts.types.form(of) is None:
        return None
    count, part = facts.types.parts(of)
    return count if part is not None and count < 1 << 32 else None


def quoted(text):
    """A text in quotes."""
    for letter, shown in (("\\", "\\\\"), ('"', '\\"'), ("\n", "\\n")):
        text = text.replace(letter, shown)
    return f'"{text}"'


def name(facts, of):
    """The name of a function in quotes after a space, as a text shows it: that of its first OpName, or else of the first
    OpEntryPoint that names it; nothing where none does."""
    for opcode, at in ((NAME, 0), (ENTRY_POINT, 1)):
        for inst in facts.insts:
            told = inst.operands[at : at + 2]
            if inst.opcode == opcode and len(told) == 2 and told[0][1] == of and told[1][0] == "Text":
                return f" {visible(quoted(told[1][1]))}"
    return ""
