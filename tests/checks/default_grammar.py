"""The built-in grammar: what is answered without a grammar file, beside Khronos' own; and what `grammar` writes.

What a grammar file gives is read here once more, from docs/PROFILE.md alone, to compare two of them entry by entry.
"""

import json
import shutil
from dataclasses import dataclass
from typing import Dict, List

from .cases import all_cases, laid_out
from .common import LAYERS as ALL_LAYERS
from .common import TESTS, Answer, Check, difference, run, shown
from .khronos import GRAMMAR as KHRONOS
from .usage import GRAMMAR, KERNEL, NO_FILE, TEXT, VALID, of_each_command, under

LAYERS = frozenset(ALL_LAYERS)
MODULES = TESTS / "modules"
TEXTS = TESTS / "texts"
GRAMMARS = sorted((TESTS / "grammars").iterdir())
OPTION = "--grammar"
# The keys that a table is made of (docs/PROFILE.md, "The grammar file").
KEYS = frozenset(
    "instructions operand_kinds opname opcode operands capabilities kind quantifier category enumerants bases enumerant"
    " value parameters".split()
)
ODD_NAME = "Op \"quoted\" \\ /\n\u007f\u0001\u00e9\u2028\U0001f600"
# A table with a little of everything, in which much is left out of the table or only a second name.
ODD = {
    "copyright": ["nobody"],
    "instructions": [
        {"opname": "OpNop", "opcode": 0, "class": "Miscellaneous", "version": "1.0"},
        {"opname": "OpNoted", "opcode": 1, "operands": [], "capabilities": []},
        {"opname": "OpNopAgain", "opcode": 0, "operands": [{"kind": "Number"}]},
        {"opname": "OpNoted", "opcode": 2, "operands": [{"kind": "Bits", "quantifier": "?", "name": "'Bits'"}]},
        {"opname": ODD_NAME, "opcode": 3, "capabilities": ["B", "A", "B"]},
        {"opname": "OpMany", "opcode": 65535, "operands": [{"kind": "Pair", "quantifier": "*"}]},
    ],
    "operand_kinds": [
        {
            "category": "BitEnum",
            "kind": "Bits",
            "enumerants": [
                {"enumerant": "None", "value": "0x0000"},
                {"enumerant": "Low", "value": "0x1", "parameters": [{"kind": "Number", "name": "'how many'"}]},
                {"enumerant": "LowAgain", "value": "0x00000001", "capabilities": ["A"]},
                {"enumerant": "Two", "value": "0x3"},
                {"enumerant": "High", "value": "0x80000000", "capabilities": ["A", "B"], "version": "1.6"},
                {"enumerant": "Odd", "value": "0x4", "parameters": [{"kind": "Number", "quantifier": "?"}]},
            ],
        },
        {"category": "Literal", "kind": "Number", "doc": "a number"},
        {"category": "ValueEnum", "kind": "Value", "enumerants": [{"enumerant": "Most", "value": 4294967295}]},
        {"category": "ValueEnum", "kind": "Empty", "enumerants": []},
        {"category": "Id", "kind": "IdResult"},
        {"category": "Literal", "kind": "Value"},
        {"category": "Composite", "kind": "Pair", "bases": ["Number", "Number"]},
    ],
}


def bare(words):
    """The words of a command line without the option for the grammar file."""
    kept, words = [], list(words)
    while words:
        word = words.pop(0)
        if word == OPTION:
            words.pop(0)
        elif not str(word).startswith(f"{OPTION}="):
            kept.append(word)
    return kept


def compared(words, program, folder, **how):
    """None if the program answers to these words without a grammar file as it does with Khronos', which goes last."""
    how = {"env": under(), **how}
    wanted = run(program, [words[0], OPTION, KHRONOS, *words[1:]], folder, **how)
    wrong = difference(wanted, run(program, words, folder, **how))
    return wrong and f"  {' '.join(map(str, words))}\n{wrong}"


# Without a grammar file.


def made(case, grammar, program, folder):
    """The answer to a case's words under another grammar file, or by the built-in grammar, and what OUT then holds."""
    folder.mkdir()
    words = bare(laid_out(case, folder))
    if grammar:
        words[1:1] = [OPTION, grammar]
    got = run(program, words, folder, env=under())
    out = folder / "O"
    content = out.read_bytes() if out.is_file() else None
    shutil.rmtree(folder)
    return got, content


def with_a_module():
    """The cases that read a module or a text under a grammar file."""
    found = [case for case in all_cases() if case.all("F") or case.all("text")]
    return [case for case in found if case.one("run").count(OPTION) == 1]


def every_case(program, folder):
    """Of what each case reads, the program says the same without a grammar file as with Khronos'."""
    count = 0
    for case in with_a_module():
        place = folder / "run"
        (wanted, wanted_made), (got, got_made) = (made(case, it, program, place) for it in (KHRONOS, None))
        wrong = difference(wanted, got)
        if wrong or wanted_made != got_made:
            return f"  {case.one('case')}\n{wrong or '  another module was made'}"
        count += 1
    return None if count > 300 else f"  {count} cases"


def every_module(*words):
    """The check that a command says of all modules the same without a grammar file as with Khronos'."""

    def check(program, folder):
        return compared([*words, *sorted(MODULES.glob("*.spv"))], program, folder)

    return check


def every_text(program, folder):
    """Each module shown and each text assembled: the same without a grammar file as with Khronos'."""
    for path in sorted(MODULES.glob("*.spv")):
        for words in ["show"], ["annotate"], ["graph"]:
            wrong = compared([*words, path], program, folder)
            if wrong:
                return wrong
    for path in sorted([*MODULES.glob("*.spvasm"), *TEXTS.glob("*.spvasm")]):
        wrong = compared(["asm", "--out", "-", path], program, folder)
        if wrong:
            return wrong
    return None


def each_command(program, folder):
    """Each command that reads a module or a text does without a grammar file, several files and `-` too."""
    for words, wanted in [*of_each_command(KERNEL), (["asm", "--out", "-", TEXT], Answer(KERNEL.read_bytes(), b"", 0))]:
        wrong = difference(wanted, run(program, words, folder, env=under()))
        if wrong:
            return f"  {words}\n{wrong}"
    with KERNEL.open("rb") as file:
        got = run(program, ["check", KERNEL, "-"], folder, env=under(), stdin=file)
    return difference(Answer(f"{KERNEL}: valid\n-: valid\n".encode(), b"", 0), got)


def one_that_is_named_wins(program, folder):
    """A grammar file that is named counts, by `--grammar` before SPV_GRAMMAR, and where it is bad that is reported."""
    thin, refused = TESTS / "grammars/thin.json", folder / "refused.json"
    refused.write_bytes(b"[1")
    module = MODULES / "value-missing-on-one-branch.spv"
    inside, under_thin = (run(program, ["check", *it, module], folder, env=under()) for it in ([], [OPTION, thin]))
    if inside == under_thin or (inside.status, under_thin.status) != (1, 1):
        return f"  inside: {inside}\n  thin:   {under_thin}"
    absent, no_tree = folder / "absent.json", Answer(b"", b"error J1\n", 2)
    rows = [
        ([], thin, under_thin),
        ([], refused, no_tree),
        ([], absent, NO_FILE),
        ([OPTION, thin], None, under_thin),
        ([OPTION, thin], refused, under_thin),
        ([OPTION, thin], absent, under_thin),
        ([OPTION, refused], None, no_tree),
        ([OPTION, refused], thin, no_tree),
        ([OPTION, absent], None, NO_FILE),
        ([OPTION, absent], thin, NO_FILE),
    ]
    for words, variable, wanted in rows:
        wrong = difference(wanted, run(program, ["check", *words, module], folder, env=under(variable)))
        if wrong:
            return f"  {words}, SPV_GRAMMAR {variable}\n{wrong}"
    return None


# What a grammar file gives.


@dataclass
class Given:
    """A table: an entry by each opcode, the opcode by each name, and a kind by each name."""

    entries: Dict[int, tuple]
    names: Dict[str, int]
    kinds: Dict[str, tuple]


def items(found):
    """The operands that a list of them tells."""
    return [(it["kind"], it.get("quantifier")) for it in found]


def number(enumerant):
    """The value of an enumerant."""
    value = enumerant["value"]
    return int(value, 16) if isinstance(value, str) else value


def is_kept(kind, enumerant):
    """Whether an enumerant is one of the table's: a value or a single bit whose parameters have no quantifier."""
    value = number(enumerant)
    is_one = kind["category"] == "ValueEnum" or not value & (value - 1)
    return is_one and not any("quantifier" in it for it in enumerant.get("parameters", []))


def enumerants(kind):
    """What a kind has under each value, and the value of each name."""
    values, names = {}, {}
    for it in kind["enumerants"] if kind["category"].endswith("Enum") else []:
        if is_kept(kind, it):
            facts = (it["enumerant"], items(it.get("parameters", [])), it.get("capabilities", []))
            values.setdefault(number(it), facts)
            names.setdefault(it["enumerant"], number(it))
    return values, names


def given(text):
    """The table of a grammar file's text: of what stands twice the first counts."""
    tree, found = json.loads(text), Given({}, {}, {})
    for it in tree["instructions"]:
        facts = (it["opname"], items(it.get("operands", [])), it.get("capabilities", []))
        found.entries.setdefault(it["opcode"], facts)
        found.names.setdefault(it["opname"], it["opcode"])
    for it in tree["operand_kinds"]:
        bases = it["bases"] if it["category"] == "Composite" else []
        found.kinds.setdefault(it["kind"], (it["category"], bases, enumerants(it)))
    return found


def differences(wanted: Given, got: Given) -> List[str]:
    """What is not the same in two tables, a line each."""
    found = []
    for what in ("entries", "names", "kinds"):
        one, other = getattr(wanted, what), getattr(got, what)
        found += [f"  {what}: only one has {key}" for key in one.keys() ^ other.keys()]
        both = [key for key in one if other.get(key, one[key]) != one[key]]
        found += [f"  {what}: {key}\n    {one[key]}\n    {other[key]}" for key in both]
    return found


# What `grammar` writes.


def written(program, folder, *words, **how):
    """What `grammar` writes, or what is wrong with the run."""
    got = run(program, ["grammar", *words], folder, **{"env": under(), **how})
    return got.out, (None if (got.err, got.status) == (b"", 0) and got.out else f"  grammar {words}: {got}")


def keys_of(tree):
    """All keys of a tree of JSON."""
    if isinstance(tree, dict):
        return set(tree).union(*map(keys_of, tree.values()))
    return set().union(*map(keys_of, tree)) if isinstance(tree, list) else set()


def outside_texts(text):
    """What stands outside of the texts of a tree of JSON."""
    found, at, is_text = [], 0, False
    while at < len(text):
        if text[at] == '"':
            is_text = not is_text
        elif not is_text:
            found.append(text[at])
        at += 2 if is_text and text[at] == "\\" else 1
    return "".join(found)


def empty_lists(tree):
    """How many keys of a tree that may be left out have an empty list."""
    if isinstance(tree, dict):
        here = sum(tree.get(key) == [] for key in ("operands", "parameters", "capabilities"))
        return here + sum(map(empty_lists, tree.values()))
    return sum(map(empty_lists, tree)) if isinstance(tree, list) else 0


def is_least(text):
    """None if a grammar file has no white space, no key that is not read and no list that may be left out, else why."""
    tree, rest = json.loads(text), outside_texts(text)
    if any(it.isspace() for it in rest):
        return "  there is white space"
    if keys_of(tree) - KEYS:
        return f"  keys: {keys_of(tree) - KEYS}"
    return f"  {empty_lists(tree)} empty lists" if empty_lists(tree) else None


def as_khronos(program, folder):
    """`grammar` writes what it writes of Khronos' file, by its path and as standard input. SPV_GRAMMAR is not read."""
    text, wrong = written(program, folder)
    if wrong:
        return wrong
    with KHRONOS.open("rb") as file:
        rows = [written(program, folder, KHRONOS), written(program, folder, "-", stdin=file)]
    rows += [written(program, folder, env=under(it)) for it in (GRAMMAR, folder / "absent")]
    for other, wrong in rows:
        if wrong or other != text:
            return wrong or f"  another text: {shown(other)}"
    return None


def entry_by_entry(program, folder):
    """What `grammar` writes has each instruction and kind of Khronos' file, and no others."""
    text, wrong = written(program, folder)
    found = [] if wrong else differences(given(KHRONOS.read_text(encoding="utf-8")), given(text.decode()))
    return wrong or "\n".join(found[:9]) or None


def of_least_size(program, folder):
    """`grammar` writes no white space and no key that a table is not made of, of each grammar file."""
    for words in [[], *([it] for it in accepted(program, folder))]:
        text, wrong = written(program, folder, *words)
        wrong = wrong or is_least(text.decode())
        if wrong:
            return f"  {words}\n{wrong}"
    return None


def accepted(program, folder):
    """The grammar files of tests/ that the program accepts, and one more."""
    odd = folder / "odd.json"
    odd.write_text(json.dumps(ODD, indent=1, ensure_ascii=False), encoding="utf-8")
    found = [odd, GRAMMAR]
    for path in GRAMMARS:
        if run(program, ["check", OPTION, path, KERNEL], folder, env=under()).status < 2:
            found.append(path)
    return found


def same_table(path, program, folder):
    """None if `grammar` of a file gives the same table and answers, and of what it wrote the same bytes."""
    text, wrong = written(program, folder, path)
    if wrong:
        return wrong
    again = folder / "again.json"
    again.write_bytes(text)
    twice, wrong = written(program, folder, again)
    if wrong or twice != text:
        return wrong or f"  {path.name}: written again {shown(twice)}"
    found = differences(given(path.read_text(encoding="utf-8-sig")), given(text.decode()))
    if found:
        return f"  {path.name}\n" + "\n".join(found[:9])
    rows = [(command, sorted(MODULES.glob("*.spv"))) for command in ("check", "explain")]
    rows += [("show", [it]) for it in sorted(MODULES.glob("*.spv"))[::7]]
    for command, files in rows:
        answers = [run(program, [command, OPTION, it, *files], folder, env=under()) for it in (path, again)]
        wrong = difference(*answers)
        if wrong:
            return f"  {path.name}: {command} {files[0].name}\n{wrong}"
    return None


def fixed_points(program, folder):
    """Each grammar file that is accepted: `grammar` of it gives the same table, and of what it wrote the same bytes."""
    found = accepted(program, folder)
    for path in found:
        wrong = same_table(path, program, folder)
        if wrong:
            return wrong
    return None if len(found) > 4 else f"  accepted: {[it.name for it in found]}"


def fixed_point_of_own(program, folder):
    """`spv grammar | spv grammar -` writes the same bytes, and they answer as the built-in grammar."""
    text, wrong = written(program, folder)
    own = folder / "own.json"
    own.write_bytes(text)
    with own.open("rb") as file:
        twice, wrong_again = written(program, folder, "-", stdin=file)
    if wrong or wrong_again or twice != text:
        return wrong or wrong_again or f"  written again: {shown(twice)}"
    files = sorted(MODULES.glob("*.spv"))
    answers = [run(program, ["explain", *it, *files], folder, env=under()) for it in ([], [OPTION, own])]
    return difference(*answers)


def refused_files(program, folder):
    """Of a grammar file that is refused, or absent, `grammar` says what `check` says, and writes nothing."""
    count = 0
    for path in [*GRAMMARS, folder / "absent.json", folder]:
        wanted = run(program, ["check", OPTION, path, KERNEL], folder, env=under())
        if wanted.status < 2:
            continue
        wrong = difference(wanted, run(program, ["grammar", path], folder, env=under()))
        if wrong:
            return f"  {path.name}\n{wrong}"
        count += 1
    return None if count > 15 else f"  {count} grammar files are refused"


def output_takes_nothing(program, folder):
    """A full output is `error file`."""
    with open("/dev/full", "wb") as full:
        got = run(program, ["grammar"], folder, env=under(), stdout=full)
    return difference(NO_FILE, got)


def khronos_is_valid(program, folder):
    """What `grammar` writes is a grammar file like any, for `--grammar` and for SPV_GRAMMAR."""
    own = folder / "own.json"
    own.write_bytes(written(program, folder)[0])
    rows = [(["check", OPTION, own, KERNEL], under()), (["check", KERNEL], under(own))]
    wrong = [difference(VALID, run(program, words, folder, env=env)) for words, env in rows]
    return next(filter(None, wrong), None)


def checks():
    """All of these."""
    beside = [
        ("every case", every_case),
        ("every verdict", every_module("check")),
        ("every explanation", every_module("explain")),
        ("every object", every_module("explain", "--json")),
        ("every text", every_text),
        ("written as Khronos' is", as_khronos),
        ("entry by entry", entry_by_entry),
    ]
    alone = [
        ("each command", each_command),
        ("a grammar file that is named", one_that_is_named_wins),
        ("of least size", of_least_size),
        ("a fixed point", fixed_point_of_own),
        ("grammar files are fixed points", fixed_points),
        ("grammar files that are refused", refused_files),
        ("a full output", output_takes_nothing),
        ("a grammar file like any", khronos_is_valid),
    ]
    tools = frozenset({"khronos"})
    return [
        *(Check(f"built-in grammar: {name}", LAYERS, run_it, tools) for name, run_it in beside),
        *(Check(f"built-in grammar: {name}", LAYERS, run_it) for name, run_it in alone),
    ]
