"""Modules that are changed in a few places, and grammar files too."""

import copy
import struct

from checks import typed
from checks.cases import written
from checks.common import TESTS
from reading.extended import EXTENDED

LONGEST = 4_000


def sources():
    """The bytes of all modules to begin with, by name: those of tests/modules, of cases and of the table of types."""
    found = {path.stem: path.read_bytes() for path in sorted((TESTS / "modules").glob("*.spv"))}
    found = {name: content for name, content in found.items() if len(content) < LONGEST}
    found |= written()
    for rule, is_global, rows in typed.ROWS:
        for codes, holds, breaks in rows:
            for code in typed.opcodes_in(codes):
                for case in (*holds, *breaks):
                    name = f"{rule} {code} {case}{' global' if is_global else ''}"
                    found[name] = typed.module(rule, code, case, is_global)[0]
    return found


def others_of(sound):
    """Of some modules those in little order, whose words are whole, and all their instructions."""
    little = {name: it for name, it in sound.items() if it[:4] == b"\3\2\x23\7" and len(it) % 4 == 0}
    return little, [inst for it in little.values() for inst in split(words_in(it))]


def with_extended(little):
    """Of modules in little order the names of those that have an extended instruction."""
    return sorted(
        name for name, it in little.items() if any(inst[0] & 0xFFFF == EXTENDED for inst in split(words_in(it)))
    )


def split(words):
    """The instructions of words from word 5 on, as far as they can be told apart."""
    at, found = 5, []
    while at < len(words):
        count = max(words[at] >> 16, 1)
        found.append(list(words[at : at + count]))
        at += count
    return found


def words_in(content):
    """The words of bytes in little order, without those of a last one that is not whole."""
    return struct.unpack(f"<{len(content) // 4}I", content[: len(content) // 4 * 4])


def change(chance, insts, others, bound):
    """Alters a list of instructions in one place."""
    how = chance.randrange(10)
    at = chance.randrange(len(insts))
    if how < 5 and len(insts[at]) > 1:
        place = chance.randrange(1, len(insts[at]))
        near = insts[at][place] + chance.choice((-2, -1, 1, 2))
        known = chance.choice(insts)
        insts[at][place] = chance.choice((near, chance.randrange(bound + 1), known[-1])) & 0xFFFFFFFF
    elif how == 5:
        insts.insert(chance.randrange(len(insts) + 1), list(insts[at]))
    elif how == 6:
        del insts[at]
    elif how == 7:
        other = chance.randrange(len(insts))
        insts[at], insts[other] = insts[other], insts[at]
    elif how == 8:
        insts.insert(at, list(chance.choice(others)))
    else:
        opcode = chance.choice(others)[0] & 0xFFFF
        insts[at][0] = insts[at][0] & 0xFFFF0000 | opcode


def changed(chance, content, others):
    """A module with one to three changes."""
    words = list(words_in(content))
    insts = split(words)
    for _ in range(chance.choice((1, 1, 1, 2, 3))):
        if insts:
            change(chance, insts, others, words[3] if len(words) > 3 else 1)
    words = words[:5] + [word for inst in insts for word in inst]
    return struct.pack(f"<{len(words)}I", *words)


def with_other_header(chance, content):
    """A module with another word in its header, or of another length."""
    at = chance.randrange(6)
    if at == 5:
        return content[: chance.randrange(len(content))]
    word = chance.choice((0, 1, 0x00010400, 0x00010100, 0x00020000, 0xFFFFFFFF, 0x07230302, 4_194_304))
    return content[: 4 * at] + struct.pack("<I", word) + content[4 * at + 4 :]


def with_other_words(chance, content):
    """A module in which one or two words of instructions are those of other instructions at that place, most often ones
    of the same opcode. Of all changes this one comes furthest: to the rules on types and on flow."""
    insts = split(words_in(content))
    longer = [inst for inst in insts if len(inst) > 1]
    for _ in range(chance.choice((1, 1, 2)) if longer else 0):
        inst = chance.choice(longer)
        alike = [it for it in longer if it[0] & 0xFFFF == inst[0] & 0xFFFF and it is not inst]
        other = chance.choice(alike if alike and chance.random() < 0.7 else longer)
        place = chance.randrange(1, len(inst))
        inst[place] = other[min(place, len(other) - 1)]
        if inst[0] & 0xFFFF == 128 and chance.random() < 0.2:
            inst[0] += NO_ROW - 128
    words = [*words_in(content)[:5], *(word for inst in insts for word in inst)]
    return struct.pack(f"<{len(words)}I", *words)


# An opcode without a row, and opcodes that most modules have.
NO_ROW = 204
COMMON = (1, 14, 15, 17, 19, 20, 21, 32, 33, 41, 43, 54, 55, 57, 61, 62, 128, 245, 246, 247, 248, 249, 250, 251)
ODD_NAMES = ("", "7", "Op Nop", "Op\nNop", "\x1b[2J", "a\rb", "\x7f\x01", "OpNop", "OpLabel", "Kernel", "None")
ODD_NAMES += ('a"b', "back\\slash", "caf\u00e9")


def odd_name(chance, tree):
    """Gives an instruction, an enumerant or a kind another name."""
    name = chance.choice(ODD_NAMES)
    how = chance.randrange(4)
    if how < 2:
        chance.choice(tree["instructions"])["opname"] = name
    elif how == 2:
        kind = chance.choice([it for it in tree["operand_kinds"] if it.get("enumerants")])
        chance.choice(kind["enumerants"])["enumerant"] = name
    else:
        old = chance.choice(("IdRef", "LoopControl", "MemoryAccess", "IdScope", "StorageClass"))
        if name not in {it["kind"] for it in tree["operand_kinds"]}:
            rename_kind(tree, old, name)


def rename_kind(tree, old, name):
    """Gives a kind another name, wherever it is named."""
    for holder in holders(tree):
        if holder.get("kind") == old:
            holder["kind"] = name
        if "bases" in holder:
            holder["bases"] = [name if it == old else it for it in holder["bases"]]


def holders(tree):
    """All objects that may name a kind."""
    for each in (*tree["instructions"], *tree["operand_kinds"]):
        yield each
        yield from each.get("operands", ())
        for enumerant in each.get("enumerants", ()):
            yield from enumerant.get("parameters", ())


def odd_operands(chance, tree):
    """Gives an instruction other operands: one less, one more, or one that may be absent or come again."""
    known = [it for it in tree["instructions"] if it.get("operands")]
    entry = chance.choice([it for it in known if it["opcode"] in COMMON] or known)
    operands, how = entry["operands"], chance.randrange(4)
    if how == 0:
        del operands[chance.randrange(len(operands))]
    elif how == 1:
        kinds = [it["kind"] for it in tree["operand_kinds"] if it["kind"] not in ("IdResult", "IdResultType")]
        operands.append({"kind": chance.choice(kinds), "quantifier": "?"})
    else:
        other = chance.choice(operands)
        if other["kind"] not in ("IdResult", "IdResultType"):
            other["quantifier"] = chance.choice("?*")


def odd_kind(chance, tree):
    """Gives an operand of an instruction another kind of one word."""
    known = [it for it in tree["instructions"] if it.get("operands")]
    entry = chance.choice([it for it in known if it["opcode"] in COMMON] or known)
    kinds = {it["kind"] for it in tree["operand_kinds"]}
    one_word = [it for it in ("IdRef", "IdScope", "LiteralInteger", "LiteralFloat") if it in kinds]
    holder = chance.choice(entry["operands"])
    if holder["kind"] in ("IdResult", *one_word):
        holder["kind"] = chance.choice(one_word)


def odd_opcode(_chance, tree):
    """Takes an opcode that has no row in the table of shapes, with the operands of another instruction."""
    entry = next((it for it in tree["instructions"] if it["opcode"] == 128), {"operands": []})
    tree["instructions"].append({"opname": "OpBitReverse", "opcode": NO_ROW, "operands": entry["operands"]})


def odd_capabilities(chance, tree):
    """Gives an instruction or an enumerant other capabilities."""
    kind = chance.choice([it for it in tree["operand_kinds"] if it.get("enumerants")])
    holder = chance.choice((chance.choice(tree["instructions"]), chance.choice(kind["enumerants"])))
    names = ("Kernel", "Shader", "Int8", "\x1b[1m", "none such", "Matrix")
    holder["capabilities"] = chance.sample(names, chance.randrange(3))


def one_less(chance, tree):
    """Takes an instruction or an enumerant away."""
    if chance.random() < 0.5:
        del tree["instructions"][chance.randrange(len(tree["instructions"]))]
    else:
        kind = chance.choice([it for it in tree["operand_kinds"] if it.get("enumerants")])
        del kind["enumerants"][chance.randrange(len(kind["enumerants"]))]


def with_a_type(chance, tree):
    """Gives OpLabel no result, or OpSwitch a result type as its first operand."""
    entries = {it["opcode"]: it for it in tree["instructions"]}
    if 248 in entries and chance.random() < 0.5:
        entries[248]["operands"] = []
    elif 251 in entries and not any(it["kind"] == "IdResultType" for it in entries[251]["operands"]):
        entries[251]["operands"].insert(0, {"kind": "IdResultType"})


def changed_grammar(chance, tree):
    """A grammar file with a few changes that no rule of grammar files breaks."""
    tree = copy.deepcopy(tree)
    ways = (odd_name, odd_name, odd_name, odd_operands, odd_kind, odd_kind, odd_capabilities, one_less, with_a_type)
    for _ in range(chance.randrange(1, 6)):
        chance.choice(ways)(chance, tree)
    odd_opcode(chance, tree)
    return tree
