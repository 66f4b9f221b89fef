"""The table of operations of docs/PROFILE.md (Y5), as the table of types of spv_ops has it.

A line of the table in src/table.rt of spv_ops has opcodes, where their values stand and the conditions
that they ask. The words of a condition are those of `spv explain`, in src/conditions.rt of
spv_facts: there 'its type' is that of the operand, here it goes by its letter.
"""

import re

from .common import TESTS, Check, Unusable
from .opcodes import CRATES, OPCODES_OF, PART, TYPED, opcodes, text

PAGE = TESTS.parent / "docs/PROFILE.md"
WORDS = CRATES / "spv_facts/src/conditions.rt"
HEAD = "| Instructions | Conditions, in order |\n|---|---|\n"
REMEDY = "tests/operations --keep writes it"
LINE = re.compile(r"([A-Z]\w+(?: to \w+)?(?:,\s+\w+(?: to \w+)?)*)(?: by (\w+(?: \w+)?))?:((?:\s+\[[^\]]*\])+);")
SEATS = {"r": "r", "o": "o", "p": "p", "q": "q", "3": "s", "4": "t", "5": "u", "6": "v", "7": "w", "8": "x"}
NUMBERS = ("no value", "one value", "two values", "three values", "four values", "five values", "six values")
ELEMENT = {True: " after the element", False: ""}
# More opcodes than these, one after another, are told by the first and the last.
MOST = 4


def words():
    """The words of each condition, by its name in the code."""
    found = re.findall(r'(\w+)::(\w+)(?:\(\w+\))? =>\s*\{?\s*"([^"]*)"', text(WORDS))
    return {variant if kind != "Object" else f"of {variant}": told for kind, variant, told in found}


# Words of names that are not capitalized as others are.
WHOLE = {"ND": "ND", "SU": "SU", "LSB": "LSB", "MSB": "MSB"}


def name(constant):
    """The name of an opcode, by that of its constant."""
    return "Op" + "".join(WHOLE.get(word, word.capitalize()) for word in constant.split("_"))


def group(first, last, known):
    """The instructions of a group of opcodes."""
    if not last:
        return name(first)
    among = range(known[first], known[last] + 1)
    if len(among) > MOST:
        return f"{name(first)} to {name(last)} ({among[0]} to {among[-1]})"
    called = {number: constant for constant, number in known.items()}
    return ", ".join(name(called[number]) for number in among)


def of(told, seat, wanted=""):
    """The words of a condition of a type, and of the one that is wanted."""
    for other in ("the one that is wanted", "the wanted one", "the wanted type"):
        told = told.replace(other, wanted)
    return told.replace("its type", seat)


def condition(asked, told):
    """What a condition of a line says, by its words in the table."""
    match asked:
        case ["gives" | "takes" as kind, count]:
            result = "a result type" if kind == "gives" else "no result type"
            return f"{result} and {NUMBERS[int(count)]}"
        case ["each", "Same"]:
            return "of each value: " + of(told["Same"], "its type", "r")
        case ["each", "Share"]:
            return "of a vector, of each constituent: " + of(told["Share"], "its type", "the component type of r")
        case ["each", "Part"]:
            return f"of a struct or an array, of each constituent: {told['Part']}"
        case ["Several" | "Filled" as rest]:
            return "of a vector: " + of(told[rest], "r")
        case ["Count"]:
            return "of a struct or an array: " + told["Count"]
        case ["indexes", *element]:
            return f"of each index{ELEMENT[bool(element)]}: {told['Int']}; {told['Chosen']}"
        case ["leads", *_]:
            return of(told["Leads"], "r")
        case ["mask" | "operands" as kind, _]:
            return told["ImageMask" if kind == "mask" else "ImageOperands"]
        case ["sign", "of", _]:
            return told["ImageSign"]
        case ["block", "of", _]:
            return told["Block"]
        case ["sizes", "after", "block", "of", _]:
            return told["LocalSizes"]
        case ["locals", "of", "block", "of", _]:
            return told["Locals"]
        case ["constant", seat]:
            return of("its operand is a constant", SEATS[seat]).replace("its operand", SEATS[seat])
        case [seat, "is", "of", kind]:
            return of(told[f"of {kind}"], SEATS[seat])
        case [seat, "points", "to", kind]:
            return of(told[f"of {kind}"], SEATS[seat]).replace(" is a", " is a pointer to a", 1)
        case [seat, "is", "pipe", access]:
            return f"{SEATS[seat]} is a pipe type of the access qualifier {('ReadOnly', 'WriteOnly')[int(access)]}"
        case [seat, "is", "image", kind]:
            return of(told[kind], SEATS[seat])
        case ["within", _]:
            return told["Within"].replace("the index", "each index", 1)
        case [seat, "reached", "from", value]:
            return of(told["Reached"], SEATS[seat]) + f" from {value}"
        case [seat, "is", kind]:
            return of(told[kind], SEATS[seat])
        case [seat, relation, wanted]:
            return of(told[relation], SEATS[seat], SEATS[wanted])
        case ["InitializerType"]:
            return "of the initializer: " + told["InitializerType"]
        case ["Component"]:
            return told["Component"].replace("the literal", "each literal", 1)
        case ["Packed"]:
            return of(told["Packed"], "o")
        case [rest]:
            return of(told[rest], "r")
    raise Unusable(f"{TYPED} asks {' '.join(asked)!r}, which has no words")


def table():
    """The rows of the table, as the page has them."""
    known, told = opcodes(), words()
    rows = []
    for groups, _, asked in LINE.findall("".join(PART.findall(text(TYPED)))):
        instructions = ", ".join(group(first, last, known) for first, last in OPCODES_OF.findall(groups))
        conditions = "; ".join(condition(one.split(), told) for one in re.findall(r"\[([^\]]*)\]", asked))
        rows.append(f"| {instructions} | {conditions} |\n")
    return HEAD + "".join(rows)


def with_table(now, head, lines):
    """A text of the page, with this table in place of the one that has this head."""
    found = re.search(re.escape(head) + r"(?:\|.*\n)*", now)
    if not found:
        raise Unusable(f"{PAGE} has no {head.splitlines()[0]!r}")
    return now[: found.start()] + lines + now[found.end() :]


def page():
    """The page with the table that it must hold."""
    return with_table(text(PAGE), HEAD, table())


def wrong_page(_program, _folder):
    """None if the page holds the table that the table of types gives, else that it does not."""
    if text(PAGE) != page():
        return f"  the table of operations of docs/PROFILE.md is not that of spv_ops; {REMEDY}"
    return None


def checks():
    """One check, of the page."""
    return [Check("operations: the table in docs/PROFILE.md", frozenset(), wrong_page)]
