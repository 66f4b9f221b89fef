"""The built-in grammar, in spv_builtin, as Khronos' grammar file has it.

How rows tell a table is said in crates/spv_table/specs/Rows.antt. What is dropped, and how kinds are numbered, is
told in spv_grammar (specs/Made.antt, specs/Kinds.antt).
"""

import json
import textwrap

from .common import TESTS, Check, Unusable
from .khronos import GRAMMAR, missing

CONSTANTS = TESTS.parent / "crates/spv_builtin/src/constants.rt"
QUANTIFIERS = (None, "?", "*")
RESULTS = ("IdResultType", "IdResult")
WIDTH = 95
REMEDY = "tests/builtin --keep makes it anew"
HEAD = """\
//! The built-in grammar: the table of Khronos' grammar file, as rows. `tests/builtin --keep` writes them.
//!
//! The facts are those of spirv.core.grammar.json, SPIR-V {version}, of the Khronos Group, whose notice follows.
//!
{notice}

use spv_table::{{
    Category, EntryRow, EnumerantRow, Form, Front, Head, Item, KindRow, Leaf, Quantifier, Results,
    Span,
}};
"""
# Below which number the place of an enumerant's value is kept.
SMALL = 64
# In how many slots a name may lie: in the one that its hash gives, and in those behind it.
NEAR = 8
NO_PLACE = 0xFFFF_FFFF
# Below which opcodes the fronts of patterns are kept: those of the profile.
FRONTED = 331
MOST = 255
NO_FRONT = ("Nothing", 0, False, MOST)


def number_in(text_or_number, category):
    """The value of an enumerant."""
    return int(text_or_number, 16) if category == "BitEnum" else text_or_number


def is_kept(category, enumerant):
    """Whether an enumerant is not dropped: none of its parameters is quantified, and a mask has one bit or none."""
    value = number_in(enumerant["value"], category)
    plain = all("quantifier" not in parameter for parameter in enumerant.get("parameters", []))
    return plain and (category != "BitEnum" or value & (value - 1) == 0)


def first_kinds(content):
    """The kinds without those whose name an earlier one bears, each with its enumerants that are not dropped."""
    found = {}
    for kind in content["operand_kinds"]:
        category = kind["category"]
        enumerants = kind["enumerants"] if category in ("BitEnum", "ValueEnum") else []
        kept = [enumerant for enumerant in enumerants if is_kept(category, enumerant)]
        bases = kind["bases"] if category == "Composite" else []
        found.setdefault(kind["kind"], (category, bases, kept))
    return found


def check_parts(kinds):
    """Refuses kinds that break J6 or J7: results among parameters or bases, and what a composite is not made of."""
    for name, (category, bases, enumerants) in kinds.items():
        parts = [parameter["kind"] for enumerant in enumerants for parameter in enumerant.get("parameters", [])]
        if any(part in RESULTS for part in [*parts, *bases]):
            raise Unusable(f"{name} has a result among its parts")
        if category == "Composite" and not all(kinds[base][0] in ("Id", "Literal") for base in bases or [name]):
            raise Unusable(f"{name} is made of what is no id and no literal")


MASK = (1 << 64) - 1
GOLDEN = 0x9E37_79B9_7F4A_7C15


def folded_multiply(left, right):
    """The two halves of the 128 bits of a product, joined by xor."""
    return left * right & MASK ^ left * right >> 64


def hash_of(name):
    """The hash of a name, as std's FoldHasher computes it (Rattle.std.specs.Hash.FoldHasher)."""
    octets, count, state = name.encode("ascii"), len(name), 0x243F_6A88_85A3_08D3

    def number(at, size):
        return int.from_bytes(octets[at : at + size], "little")

    if count <= 8:
        if count >= 4:
            short = number(0, 4) | number(count - 4, 4) << 32
        else:
            short = octets[0] | octets[count // 2] << 8 | octets[count - 1] << 16 if count else 0
        return folded_multiply(state ^ short, GOLDEN ^ 2 * count)
    state = state + count & MASK
    for block in range((count - 1) // 16):
        state = folded_multiply(number(16 * block, 8) ^ state, number(16 * block + 8, 8) ^ GOLDEN)
    last = max(count - 16, 0)
    return folded_multiply(number(last, 8) ^ state, number(count - 8, 8) ^ GOLDEN)


def slots_of(names):
    """Slots that find these names: each name's place in the first free one of those in which it may lie."""
    if len(set(names)) != len(names):
        raise Unusable("a name is there twice")
    count = 2 * len(names) + 1
    while True:
        slots = [NO_PLACE] * (count + NEAR)
        for place, name in enumerate(names):
            first = hash_of(name) % count
            free = [slot for slot in range(first, first + NEAR) if slots[slot] == NO_PLACE]
            if not free:
                break
            slots[free[0]] = place
        else:
            return slots
        count += 1


def places_of(numbers, most):
    """For each number below `most` the place of the first that is it, up to the greatest that is there."""
    first = {}
    for place, number in enumerate(numbers):
        if number < most:
            first.setdefault(number, place)
    return [first.get(number, NO_PLACE) for number in range(max(first, default=-1) + 1)]


def optional_in(operands):
    """How many operands at the end are optional."""
    quantified = [operand.get("quantifier") is not None for operand in operands]
    return len(quantified) if all(quantified) else quantified[::-1].index(False)


def form_of(name, category):
    """The form of a kind, as crates/spv_table/specs/inner/Form.antt has it."""
    leaves = {
        "Id": {"IdResultType": "ResultType", "IdResult": "Result"}.get(name, "Id"),
        "Literal": {
            "LiteralInteger": "Integer",
            "LiteralFloat": "Word",
            "LiteralExtInstInteger": "Word",
            "LiteralString": "Text",
            "LiteralContextDependentNumber": "ContextNumber",
        }.get(name, "Nothing"),
        "ValueEnum": "Value",
        "BitEnum": "Mask",
    }
    if category == "Composite":
        return f"Form::Parts {{ paired: {str(name == 'PairLiteralIntegerIdRef').lower()} }}"
    return f"Form::Leaf(Leaf::{leaves[category]})"


class Lists:
    """Lists that lie in one, each once."""

    def __init__(self):
        self.elements = []
        self.spans = {}

    def span(self, elements):
        """The span of a list, which is added if it is not there."""
        begin = len(self.elements)
        if not elements:
            return "Span(0, 0)"
        if tuple(elements) not in self.spans:
            self.elements += elements
            self.spans[tuple(elements)] = f"Span({begin}, {len(self.elements)})"
        return self.spans[tuple(elements)]


def item_of(kind, quantifier):
    """An item of a pattern."""
    name = ("One", "Maybe", "Many")[QUANTIFIERS.index(quantifier)]
    return f"    Item {{\n        kind: {kind},\n        quantifier: Quantifier::{name},\n    }},\n"


class Rows:
    """The constants, as far as they were made."""

    def __init__(self, kinds):
        self.kinds = kinds
        self.numbers_of = {name: number for number, name in enumerate(kinds)}
        self.text = ""
        self.names = {}
        self.items, self.numbers, self.lists = Lists(), Lists(), Lists()
        self.slots = []
        self.near = Lists()

    def name(self, name):
        """The span of a name, which is added to the text."""
        begin = len(self.text)
        self.text += name
        self.names.setdefault(name, f"Span({begin}, {len(self.text)})")
        return f"Span({begin}, {len(self.text)})"

    def capabilities(self, element):
        """The span of the names of its capabilities."""
        return self.lists.span([self.names[name] for name in element.get("capabilities", [])])

    def enumerant(self, category, element):
        """The row of an enumerant: the names of its capabilities are written later."""
        parameters = [self.numbers_of[parameter["kind"]] for parameter in element.get("parameters", [])]
        value, name = number_in(element["value"], category), self.name(element["enumerant"])
        return f"EnumerantRow({value}, {name}, {self.numbers.span(parameters)}, {{}})", element

    def kind_slots(self, enumerants):
        """The span of the slots of the names of enumerants."""
        begin = len(self.slots)
        self.slots += slots_of([enumerant["enumerant"] for enumerant in enumerants])
        return f"Span({begin}, {len(self.slots)})"

    def near_places(self, category, enumerants):
        """The span of the places of the enumerants with small values, by their values."""
        return self.near.span(places_of([number_in(it["value"], category) for it in enumerants], SMALL))

    def entry(self, instruction):
        """The row of an instruction."""
        operands = [
            item_of(self.numbers_of[operand["kind"]], operand.get("quantifier"))
            for operand in instruction.get("operands", [])
        ]
        optional = optional_in(instruction.get("operands", []))
        parts = (self.name(instruction["opname"]), self.items.span(operands), self.capabilities(instruction))
        return f"EntryRow({instruction['opcode']}, {', '.join(parts)}, {optional})"


def results_of(operands):
    """Whether a pattern has a result: among the items that are always there, and among all."""
    found = [operand.get("quantifier") is None for operand in operands if operand["kind"] == "IdResult"]
    parts = (f"always: {str(any(found)).lower()}", f"ever: {str(bool(found)).lower()}")
    return f"    Results {{\n{''.join(f'        {part},' + chr(10) for part in parts)}    }},\n"


def ids_in(kinds, operands):
    """How many items are ids that come once at most, whether ids that come any number of times follow, and how many
    operands there are at least, as crates/spv_table/specs/inner/Front.antt has it."""
    singles, repeated, least = 0, False, 0
    for operand in reversed(operands):
        is_id = kinds[operand["kind"]][0] == "Id" and operand["kind"] not in RESULTS
        quantifier = operand.get("quantifier")
        if quantifier == "*":
            singles, repeated, least = 0, is_id, MOST if least else 0
            continue
        singles, repeated = min(singles + 1, MOST) if is_id else 0, is_id and repeated
        least = min(least + 1, MOST) if least or quantifier is None else 0
    return singles, repeated, least


def front_of(kinds, operands):
    """The front of a pattern."""
    begin = [(operand["kind"], operand.get("quantifier")) for operand in operands[:2]]
    result = ("IdResult", None)
    if begin[:1] == [result]:
        head, count = "Result", 1
    elif begin == [("IdResultType", None), result]:
        head, count = "TypeAndResult", 2
    else:
        head, count = "Nothing", 0
    singles, repeated, least = ids_in(kinds, operands[count:])
    if least + count >= MOST:
        return NO_FRONT
    return head, min(singles + count, MOST), repeated, least + count


def fronts_of(kinds, instructions):
    """The fronts of the opcodes of the profile."""
    first = {}
    for instruction in instructions:
        first.setdefault(instruction["opcode"], front_of(kinds, instruction.get("operands", [])))
    return [first.get(opcode, NO_FRONT) for opcode in range(FRONTED)]


def front_text(head, singles, repeated, least):
    """A front."""
    parts = (f"head: Head::{head}", f"singles: {singles}", f"repeated: {str(repeated).lower()}", f"least: {least}")
    return f"    Front {{\n{''.join(f'        {part},' + chr(10) for part in parts)}    }},\n"


def array(text, name, kind, elements):
    """A constant of an element in each line."""
    told = "".join(it if it.startswith(" ") else f"    {it},\n" for it in elements)
    return f"\n/// {text}\npub static {name}: [{kind}; {len(elements)}] = [\n{told}];\n"


def numbers(text, name, elements):
    """A constant of numbers."""
    told = textwrap.indent(textwrap.fill(", ".join(map(str, elements)) + ",", WIDTH), "    ")
    return f"\n/// {text}\npub static {name}: [u32; {len(elements)}] = [\n{told}\n];\n"


def rows(content):
    """The constants of a grammar file's table."""
    kinds = first_kinds(content)
    check_parts(kinds)
    it = Rows(kinds)
    kind_names = {name: it.name(name) for name in kinds}
    enumerants, kind_rows = [], []
    for name, (category, bases, kept) in kinds.items():
        span = f"Span({len(enumerants)}, {len(enumerants) + len(kept)})"
        enumerants += [it.enumerant(category, element) for element in kept]
        based = it.numbers.span([it.numbers_of[base] for base in bases])
        places = (it.kind_slots(kept), it.near_places(category, kept))
        parts = (f"Category::{category}", kind_names[name], based, span, *places)
        kind_rows.append(f"    KindRow(\n{''.join(f'        {part},' + chr(10) for part in parts)}    ),\n")
    enumerant_rows = [row.format(it.capabilities(element)) for row, element in enumerants]
    entries = [it.entry(instruction) for instruction in content["instructions"]]
    opnames = [instruction["opname"] for instruction in content["instructions"]]
    return "".join(
        (
            f'\n/// The names, one after another.\npub static TEXT: &str =\n    "{it.text}";\n',
            array("The items of patterns.", "ITEMS", "Item", it.items.elements),
            numbers("The numbers of the kinds of parameters, and of bases.", "NUMBERS", it.numbers.elements),
            array("The names of capabilities.", "NAMES", "Span", it.lists.elements),
            array("The kinds.", "KINDS", "KindRow", kind_rows),
            array("The enumerants of all kinds.", "ENUMERANTS", "EnumerantRow", enumerant_rows),
            array("The instructions.", "ENTRIES", "EntryRow", entries),
            numbers(
                "For each opcode the place of the first instruction that has it; 4,294,967,295 where none has it.",
                "PLACES",
                places_of([instruction["opcode"] for instruction in content["instructions"]], 0x1_0000),
            ),
            array("The forms of the kinds.", "FORMS", "Form", [form_of(name, kind[0]) for name, kind in kinds.items()]),
            array(
                "Of each instruction whether its pattern has a result.",
                "RESULTS",
                "Results",
                [results_of(instruction.get("operands", [])) for instruction in content["instructions"]],
            ),
            array(
                "The fronts of the opcodes of the profile.",
                "FRONTS",
                "Front",
                [front_text(*front) for front in fronts_of(kinds, content["instructions"])],
            ),
            numbers("Slots that find the names of kinds.", "KIND_SLOTS", slots_of(list(kinds))),
            numbers("Slots that find the names of the enumerants of each kind.", "SLOTS", it.slots),
            numbers(
                "For each value below 64 of a kind the place of the first enumerant that has it.",
                "NEAR",
                it.near.elements,
            ),
            numbers("Slots that find the names of instructions.", "ENTRY_SLOTS", slots_of(opnames)),
        )
    )


def written():
    """The text of the file of the constants."""
    lacking = missing()
    if lacking:
        raise Unusable(lacking)
    content = json.loads(GRAMMAR.read_text(encoding="utf-8"))
    version = f"{content['major_version']}.{content['minor_version']} revision {content['revision']}"
    notice = "\n".join(f"//! {line}".rstrip() for line in content["copyright"])
    return HEAD.format(version=version, notice=notice) + rows(content)


def wrong_constants(_program, _folder):
    """None if the file holds the constants that Khronos' file gives."""
    if CONSTANTS.read_text(encoding="utf-8") != written():
        return f"  {CONSTANTS.name} of spv_builtin is not what {GRAMMAR} tells; {REMEDY}"
    return None


def checks():
    """One check, of the file of the constants."""
    return [Check("Khronos' grammar: the built-in constants", frozenset(), wrong_constants, frozenset({"khronos"}))]
