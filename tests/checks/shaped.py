"""The table of shapes of docs/PROFILE.md for `--opencl`, as the table of rows of spv_layout has it.

A line of the table in src/rows.rt of spv_layout that ends with the word `opencl` belongs to that option alone. The
page has such a line as the others: the opcodes, with b where they stand in the body of a block, their names, and the
operands in letters.
"""

import re

from .common import Check, Unusable
from .opcodes import LAYOUT, OPCODES_OF, PART, opcodes, text
from .operations import MOST, PAGE, name, with_table

HEAD = "| Opcodes of OpenCL | Names | Operands |\n|---|---|---|\n"
REMEDY = "tests/operations --keep writes it"
LINE = re.compile(r"([A-Z]\w+(?: to \w+)?):\s+(\w+)\s+\[([^\]]*)\]\s+(\w+)(?:\[([^\]]*)\])?\s+opencl;")


def operand(form):
    """A fixed operand as the page writes it."""
    return form.strip().removeprefix("kind ")


def operands(fixed, ending, after):
    """The operands of a row as the page writes them."""
    told = [operand(it) for it in fixed.split(",") if it.strip()]
    more = [operand(it) for it in (after or "").split(",") if it.strip()]
    match ending, more:
        case "closed", []:
            pass
        case "maybe", [one]:
            told.append(f"{one}?")
        case "repeated", [one]:
            told.append(f"{one}*")
        case "repeated", several:
            told.append(f"({' '.join(several)})*")
        case "others", []:
            told[-1] += "+"
        case "maybe_repeated", [one, other]:
            told.append(f"[{one} {other}*]")
        case _:
            raise Unusable(f"{LAYOUT} has an ending {ending} {more}")
    return " ".join(told) or "none"


def names(first, last, known):
    """The numbers and the names of a row's opcodes."""
    called = {number: constant for constant, number in known.items()}
    numbers = [it for it in range(known[first], known[last or first] + 1) if it in called]
    told = [name(called[it]).removeprefix("Op") for it in numbers]
    spelled = ", ".join(map(str, numbers)) if len(numbers) < 3 else f"{numbers[0]} to {numbers[-1]}"
    return spelled, ", ".join(told) if len(told) <= MOST else f"{told[0]} to {told[-1]}"


def table():
    """The table."""
    known = opcodes()
    rows = []
    for group, of_class, fixed, ending, after in LINE.findall("".join(PART.findall(text(LAYOUT)))):
        spelled, told = names(*OPCODES_OF.fullmatch(group).groups(), known)
        body = " b" if of_class == "Body" else ""
        rows.append(f"| {spelled}{body} | {told} | {operands(fixed, ending, after)} |\n")
    return HEAD + "".join(rows)


def page(now):
    """The page, of which this is the text, with the table that it must hold."""
    return with_table(now, HEAD, table())


def wrong_page(_program, _folder):
    """None if the page holds the table that the rows say, else that it does not."""
    now = text(PAGE)
    return None if now == page(now) else f"  the table of shapes of docs/PROFILE.md is not that of spv_layout; {REMEDY}"


def checks():
    """One check, of the page."""
    return [Check("shapes of OpenCL: the table in docs/PROFILE.md", frozenset(), wrong_page)]
