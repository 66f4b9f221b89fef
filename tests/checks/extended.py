"""What extended instructions take, in spv_extended and in the second reading, as Khronos' grammar files have it.

The crate has a list for each set: at the number of an instruction a number that says what stands behind it
(src/facts.rt says how it is read). The reading has the kinds of the operands themselves (reading/sets.json). This is
what writes both, and compares them.
"""

import json
import re
import textwrap
from pathlib import Path

from .common import TESTS, Check, Unusable

FACTS = TESTS.parent / "crates/spv_extended/src/facts.rt"
KINDS = TESTS / "reading/sets.json"
FOLDER = Path("/usr/include/spirv/unified1")
SETS = {
    "OPENCL_STD": "extinst.opencl.std.100.grammar.json",
    "OPENCL_DEBUG_INFO": "extinst.opencl.debuginfo.100.grammar.json",
    "DEBUG_INFO": "extinst.debuginfo.grammar.json",
}
# The same sets by the names that OpExtInstImport has for them.
NAMES = dict(zip(("OpenCL.std", "OpenCL.DebugInfo.100", "DebugInfo"), SETS.values()))
IDS = ("IdRef", "PairIdRefIdRef")
MORE = {"": 0, "?": 1, "*": 2}
NONE = 3
LAST_PLACE = 25
WIDTH = 95
REMEDY = "tests/extended --write makes it anew"


def fact(operands):
    """The number of an instruction with these operands."""
    marks = [it.get("quantifier", "") for it in operands]
    if any(marks[:-1]):
        raise Unusable("an operand that may be left out, or come again, has others behind it")
    more = MORE[marks[-1]] if marks else MORE[""]
    literals = 0
    for place, operand in enumerate(operands):
        if operand["kind"] not in IDS:
            places = range(place, LAST_PLACE + 1) if marks[place] == "*" else (place,)
            literals |= sum(1 << it for it in places)
    least = len(operands) - (more != 0)
    if least > 15 or len(operands) > LAST_PLACE:
        raise Unusable("an instruction has more operands than a fact can tell")
    return least | more << 4 | literals << 6


def instructions(file):
    """The operands of the instructions of a set, by the number of each."""
    tree = json.loads((FOLDER / file).read_text(encoding="utf-8"))
    return {it["opcode"]: it.get("operands", []) for it in tree["instructions"]}


def facts(name):
    """The numbers of a set, by the numbers of its instructions from 0."""
    known = {number: fact(operands) for number, operands in instructions(SETS[name]).items()}
    return [known.get(number, NONE << 4) for number in range(max(known) + 1)]


def list_of(name):
    """The static with the facts of a set."""
    told = facts(name)
    lines = textwrap.fill(", ".join(map(hex, told)) + ",", WIDTH)
    return f"pub static {name}: [u32; {len(told)}] = [\n{textwrap.indent(lines, '    ')}\n];\n"


def facts_content():
    """What the file of the crate must hold."""
    now = FACTS.read_text(encoding="utf-8")
    for name in SETS:
        pattern = re.compile(rf"(?m)^pub static {name}: \[u32; \d+\] = \[\n(    .*\n)*\];\n")
        if not pattern.search(now):
            raise Unusable(f"{FACTS} has no {name}")
        now = pattern.sub(lambda _, name=name: list_of(name), now)
    return now


def kind_of(operand):
    """The kind of an operand, with its quantifier behind it."""
    return operand["kind"] + operand.get("quantifier", "")


def kinds_content():
    """What the file of the reading must hold: of each set the kinds of the operands of each instruction."""
    told = {}
    for name, file in NAMES.items():
        known = instructions(file).items()
        told[name] = {number: " ".join(map(kind_of, operands)) for number, operands in known}
    return json.dumps(told, indent=0) + "\n"


def files():
    """The files, with what they must hold."""
    return {FACTS: facts_content(), KINDS: kinds_content()}


def wrong_facts(_program, _folder):
    """None if the files hold what Khronos' files say."""
    for path, content in files().items():
        if not path.exists() or path.read_text(encoding="utf-8") != content:
            return f"  {path.relative_to(TESTS.parent)} is not what Khronos' files tell; {REMEDY}"
    return None


def checks():
    """One check, of both files."""
    return [Check("extended: Khronos' instructions", frozenset(), wrong_facts, frozenset({"khronos"}))]
