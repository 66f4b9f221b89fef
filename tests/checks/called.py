"""The table of OpenCL.std of docs/PROFILE.md (Y10), as the table of spv_std_types has it.

A line of the table in src/table.rt of spv_std_types has numbers of instructions and the conditions that they ask. The
names of the instructions are those that spv_annotate has for comments, and what a type is to be is said in the words
of `spv explain`, where that has words for it.
"""

import re

from .common import Check, Unusable
from .opcodes import CRATES, PART, text
from .operations import PAGE, words, with_table

TABLE = CRATES / "spv_std_types/src/table.rt"
NAMES = CRATES / "spv_annotate/src/opencl.rt"
HEAD = "| Instructions of OpenCL.std | Conditions, in order |\n|---|---|\n"
REMEDY = "tests/operations --keep writes it"
LINE = re.compile(r"((?:\d+(?: to \d+)?,?\s+)*\d+(?: to \d+)?):((?:\s+\[[^\]]*\])+);")
NUMBERS_OF = re.compile(r"(\d+)(?: to (\d+))?")
CLASSES = {
    "Stored": "Workgroup, CrossWorkgroup, Function or Generic",
    "Loaded": "UniformConstant, Workgroup, CrossWorkgroup, Function or Generic",
    "0": "UniformConstant",
    "5": "CrossWorkgroup",
}
# What a type is to be, where the words of other conditions do not say it.
KINDS = {
    "Void": "is void",
    "Numbers": "is an int, a float or a vector of them",
    "Half": "is a float of width 16",
}
RELATIONS = {
    "Same": "is {}",
    "SameCount": "has as many components as {}",
    "SameWidth": "has components as wide as those of {}",
    "HalfWidth": "has components half as wide as those of {}",
    "SameComponent": "has the component type of {}",
    "ComponentOf": "is the component type of {}",
}
NUMBERS = {
    "Count": "is the number of components of r",
    "Rounding": "is a rounding mode: 0 (RTE), 1 (RTZ), 2 (RTP) or 3 (RTN)",
}


def lines():
    """The lines of the table: the numbers of each, and the words of its conditions."""
    code = re.sub(r"//.*", "", "".join(PART.findall(text(TABLE))))
    for numbers, asked in LINE.findall(code):
        found = [range(int(first), int(last or first) + 1) for first, last in NUMBERS_OF.findall(numbers)]
        yield [it for among in found for it in among], [it.split() for it in re.findall(r"\[([^\]]*)\]", asked)]


def names():
    """The names of the instructions, of each number that has one."""
    found = re.search(r'OPENCL: &str = r#"(.*?)"#', text(NAMES), re.S)
    if not found:
        raise Unusable(f"{NAMES} has no names")
    return {number: name for number, name in enumerate(found[1].split("\n")) if name}


def among(numbers):
    """Some numbers in words, where a scalar has one component."""
    match numbers:
        case ["not", "1"]:
            return "several"
        case ["most", most]:
            return f"at most {most}"
        case [*first, last]:
            return " or ".join([*filter(None, [", ".join(first)]), last])
    raise Unusable(f"{TABLE} has numbers {numbers}")


def what(seat, asked):
    """What is asked of a type, told by its letter or by the pointer to it."""
    match asked:
        case ["is", kind]:
            told = KINDS.get(kind) or words()[kind].removeprefix("its type ")
            return f"{seat} {told}"
        case ["count", "1"]:
            return f"{seat} has one component"
        case ["count", *numbers]:
            return f"{seat} has {among(numbers)} components"
        case ["width", *numbers]:
            return f"{seat} has components of width {among(numbers)}"
        case ["in", classes]:
            return f"{seat} is a pointer of the storage class {CLASSES[classes]}"
        case [relation, other]:
            return f"{seat} {RELATIONS[relation].format(other)}"
    raise Unusable(f"{TABLE} asks {' '.join(asked)!r}, which has no words")


def condition(asked):
    """What a condition of a line says, by its words in the table."""
    match asked:
        case ["number", seat, wanted]:
            return f"{seat} {NUMBERS[wanted]}"
        case ["to", seat, *rest]:
            return what(f"what {seat} points to", rest)
        case [seat, *rest]:
            return what(seat, rest)
    raise Unusable(f"{TABLE} has an empty condition")


def table():
    """The table, as the page has it."""
    known, rows = names(), []
    for numbers, asked in lines():
        told = ", ".join(f"{it} {known[it]}" for it in numbers)
        rows.append(f"| {told} | {'; '.join(map(condition, asked))} |\n")
    return HEAD + "".join(rows)


def page(now):
    """The page, of which this is the text, with the table that it must hold."""
    return with_table(now, HEAD, table())


def wrong_page(_program, _folder):
    """None if the page holds the table that the table of OpenCL.std gives, else that it does not."""
    now = text(PAGE)
    if now != page(now):
        return f"  the table of OpenCL.std of docs/PROFILE.md is not that of spv_std_types; {REMEDY}"
    return None


def checks():
    """One check, of the page."""
    return [Check("types of OpenCL.std: the table in docs/PROFILE.md", frozenset(), wrong_page)]
