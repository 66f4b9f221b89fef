"""The pictures of `spv graph`, drawn by `dot -Tsvg`: what must be in each of them, and nothing else."""

import re
import subprocess
import xml.etree.ElementTree as tree
from dataclasses import dataclass, field
from typing import Dict, List, Set, Tuple

from reading.assemble import assembled
from reading.facts import FUNCTION, FUNCTION_END, LABEL, Facts
from reading.text import visible
from reading.verdict import grammar_in

from .annotated import BEGUN, DECLARATIONS, ENDED, LOOP, asked, cases_with_words, code_of, functions_of, refused
from .annotated import text_of
from .cases import written
from .common import LAYERS as ALL_LAYERS
from .common import TESTS, Answer, Check, difference, run
from .json_objects import HOSTILE, quoted
from .paged import TAGS
from .usage import BROKEN, GRAMMAR, KERNEL, under

LAYERS = frozenset(ALL_LAYERS)
TOOLS = frozenset({"dot"})
# How many octets of a text in angle brackets `dot` reads.
LONGEST_READ = 16384
SVG = "{http://www.w3.org/2000/svg}"
LINK = "{http://www.w3.org/1999/xlink}href"
SECONDS = 300
BATCH = 50
NAME, ENTRY, CALL = 5, 15, 57
BRANCH, CONDITIONAL, SWITCH = 249, 250, 251
# Elements that a picture may have: shapes and texts.
ELEMENTS = {"svg", "g", "title", "polygon", "path", "text", "ellipse", "polyline"}
SHOWN = TESTS.parent / "docs/pictures/value-missing-on-one-branch.svg"


# What is drawn.


@dataclass
class Node:
    """A node: its lines, which of them are red, and how it is framed."""

    lines: List[str] = field(default_factory=list)
    red_lines: List[str] = field(default_factory=list)
    is_red: bool = False
    is_bold: bool = False
    is_dashed: bool = False
    is_double: bool = False


@dataclass
class Picture:
    """Nodes by their ids, and edges: from, to, the word at it, whether it is red, whether it is dashed."""

    nodes: Dict[str, Node] = field(default_factory=dict)
    edges: List[Tuple[str, str, str, bool, bool]] = field(default_factory=list)


def plain(text):
    """A text as it is drawn, with spaces in place of those that are kept."""
    return text.replace("\xa0", " ")


def words_of(group):
    """The texts of a node or an edge, those in red apart."""
    texts = [(plain(it.text or ""), it.get("fill")) for it in group.iter(f"{SVG}text")]
    return [text for text, _ in texts], [text for text, fill in texts if fill == "red"]


def node_of(group):
    """A node of a picture."""
    lines, red = words_of(group)
    frames = [it for it in group.iter() if it.tag in (f"{SVG}polygon", f"{SVG}ellipse", f"{SVG}path")]
    return Node(
        lines,
        red,
        any(it.get("stroke") == "red" for it in frames),
        any(float(it.get("stroke-width", "1")) > 1 for it in frames),
        any(it.get("stroke-dasharray") for it in frames),
        len(frames) == 2,
    )


def edge_of(group, title):
    """An edge of a picture."""
    source, _, to = title.partition("->")
    lines, _ = words_of(group)
    path = next(group.iter(f"{SVG}path"))
    return source, to, " ".join(lines), path.get("stroke") == "red", bool(path.get("stroke-dasharray"))


def picture_of(svg):
    """What is drawn in a picture; raises ValueError where it has what none may have."""
    root = tree.fromstring(svg)
    found = Picture()
    for it in root.iter():
        if it.tag.replace(SVG, "") not in ELEMENTS or it.get(LINK) or any(name.startswith("on") for name in it.keys()):
            raise ValueError(f"a picture with {it.tag} {it.attrib}")
    for group in root.iter(f"{SVG}g"):
        title = group.find(f"{SVG}title")
        if group.get("class") == "node":
            found.nodes[title.text] = node_of(group)
        elif group.get("class") == "edge":
            found.edges.append(edge_of(group, title.text))
    return found


def drawn(texts, folder):
    """What `dot` draws of some texts, in order; raises ValueError where it refuses or warns."""
    files = []
    for number, text in enumerate(texts):
        files.append(folder / f"{number}.dot")
        files[-1].write_bytes(text)
    found = []
    for at in range(0, len(files), BATCH):
        words = ["dot", "-Tsvg", *map(str, files[at : at + BATCH])]
        ended = subprocess.run(words, capture_output=True, timeout=SECONDS, check=False)
        said = [line for line in ended.stderr.decode().splitlines() if "ontconfig" not in line and "Pango" not in line]
        if ended.returncode != 0 or said:
            raise ValueError(f"dot: {said[:5]}")
        found += [b"<?xml" + it for it in ended.stdout.split(b"<?xml")[1:]]
    if len(found) != len(files):
        raise ValueError(f"dot has {len(found)} pictures of {len(files)} texts")
    return [picture_of(it) for it in found]


# What must be drawn.


def odd(text):
    """A text as it is drawn: hidden characters by their octets."""
    return re.sub("[\ufffe\uffff]", lambda it: "".join(f"\\x{octet:02x}" for octet in it[0].encode()), visible(text))


def named(insts, opcode, places):
    """The names that instructions of an opcode give to each id, in order: the places of the id and the name."""
    found = {}
    for inst in insts:
        if inst.opcode == opcode:
            found.setdefault(inst.operands[places[0]][1], []).append(inst.operands[places[1]][1])
    return found


def bodies_of(insts):
    """The functions, by opcodes alone: the numbers of each, from its OpFunction to before its end."""
    found, is_open = [], False
    for number, inst in enumerate(insts):
        if inst.opcode == FUNCTION:
            found.append([])
        is_open = inst.opcode == FUNCTION or is_open and inst.opcode != FUNCTION_END
        if is_open:
            found[-1].append(number)
    return found


def calls_wanted(facts):
    """The picture of the calls of a module: a node for each function, an edge for each that it calls."""
    insts, wanted = facts.insts, Picture()
    names, entries = named(insts, NAME, (0, 1)), named(insts, ENTRY, (1, 2))
    for body in bodies_of(insts):
        of = insts[body[0]].result
        told = [*names.get(of, ())[:1], *entries.get(of, ())]
        lines = [f"%{of}", *(odd(name) for name in told)]
        is_defined = any(insts[it].opcode == LABEL for it in body)
        wanted.nodes[str(of)] = Node(lines, is_dashed=not is_defined, is_double=of in entries)
        for it in body:
            if insts[it].opcode == CALL:
                edge = (str(of), str(insts[it].operands[2][1]), "", False, False)
                wanted.edges += [edge] * (edge not in wanted.edges)
    for _, to, *_ in wanted.edges:
        wanted.nodes.setdefault(to, Node([f"%{to}"]))
    return wanted


def targets_of(inst):
    """The blocks that a branch leads to, each with the word at its edge."""
    ids = [it[1] for it in inst.operands if it[0] == "Id"]
    if inst.opcode == BRANCH:
        return [(ids[0], "")]
    if inst.opcode == CONDITIONAL:
        return list(zip(ids[1:], ("true", "false")))
    if inst.opcode == SWITCH:
        numbers = [it[1] | it[2] << 32 for it in inst.operands if it[0] == "Number"]
        return list(zip(ids[1:], ["default", *map(str, numbers)]))
    return []


def steps_of(printed):
    """The labels of the walk that is reported, in order."""
    line = next((line for line in printed if line.startswith("walk:")), "")
    return [int(it) for it in re.findall(r"%(\d+)", line)]


def fault_of(printed):
    """The number of the instruction of a fault, or None."""
    found = re.match(r"fault \S+ inst (\d+)", printed[0])
    return int(found[1]) if found else None


def blocks_wanted(facts, function, printed):
    """The picture of the blocks of a function, with the fault that is reported where it lies there."""
    insts, wanted = facts.insts, Picture()
    body = next(it for it in bodies_of(insts) if insts[it[0]].result == function)
    fault = fault_of(printed)
    walk = steps_of(printed) if fault in body else []
    steps, part, first = list(zip(walk, walk[1:])), None, None
    for number in body:
        inst = insts[number]
        if inst.opcode in (FUNCTION, LABEL):
            part, first = inst.result, inst.result if first is None and inst.opcode == LABEL else first
            wanted.nodes[str(part)] = Node(is_red=part in walk)
        node, line = wanted.nodes[str(part)], f"{number}: {odd(facts.text.inst(number))}"
        node.lines.append(line)
        if number == fault:
            node.red_lines, node.is_red, node.is_bold = [line], True, True
        for to, word in targets_of(inst):
            wanted.edges.append((str(part), str(to), word, (part, to) in steps, False))
    if first is not None:
        wanted.edges.append((str(function), str(first), "", False, True))
    for _, to, *_ in wanted.edges:
        wanted.nodes.setdefault(to, Node([f"%{to}"]))
    return wanted


def picture_differs(wanted, got):
    """None if a picture has what is wanted, else what is wrong."""
    if sorted(wanted.edges) != sorted(got.edges):
        lacking = [it for it in wanted.edges if it not in got.edges]
        return f"  edges: lacks {lacking[:5]}, has {[it for it in got.edges if it not in wanted.edges][:5]}"
    if set(wanted.nodes) != set(got.nodes):
        return f"  nodes: {sorted(set(wanted.nodes) ^ set(got.nodes))[:9]}"
    for name, node in wanted.nodes.items():
        if trimmed(node) != trimmed(got.nodes[name]):
            return f"  node {name}\n  wanted: {trimmed(node)}\n  got:    {trimmed(got.nodes[name])}"
    return None


def trimmed(node):
    """A node without the spaces at the ends of its lines, and without empty lines, which a picture need not have."""

    def lines(texts):
        return [it.strip() for it in texts if it.strip()]

    return Node(lines(node.lines), lines(node.red_lines), node.is_red, node.is_bold, node.is_dashed, node.is_double)


def is_plain(facts):
    """Whether each function has an id of its own, and each block, so that each is a node."""
    results = [it.result for it in facts.insts if it.opcode in (FUNCTION, LABEL)]
    return len(results) == len(set(results))


def pictures_of(program, folder, name, facts, path):
    """The pictures of a module: what is wrong with the answers, or for each picture its text and what it must have."""
    printed = text_of(asked(program, folder, "explain", path)).split("\n")[:-1]
    whole = asked(program, folder, "graph", path)
    if code_of(printed) in "WI":
        return difference(refused(printed), whole), []
    wrong = None if (whole.err, whole.status) == (b"", 0) else f"  {whole}"
    found = [(name, whole.out, calls_wanted(facts))] if is_plain(facts) else []
    for function in functions_of(facts):
        alone = asked(program, folder, "graph", "--function", str(function), path)
        if code_of(printed) in "PL":
            wrong = wrong or difference(refused(printed), alone)
        elif (alone.err, alone.status) != (b"", 0):
            wrong = wrong or f"  {alone}"
        elif is_plain(facts):
            found.append((f"{name}, function {function}", alone.out, blocks_wanted(facts, function, printed)))
    return wrong, found


def all_drawn(found, folder):
    """None if all pictures have what they must."""
    try:
        pictures = drawn([text for _, text, _ in found], folder)
    except ValueError as error:
        return f"  {error}"
    wrong = ((name, picture_differs(wanted, got)) for (name, _, wanted), got in zip(found, pictures))
    return next((f"  {name}\n{what}" for name, what in wrong if what), None)


def modules_drawn(program, folder):
    """All modules of tests/modules, and those of texts of cases."""
    read, found = grammar_in(GRAMMAR), []
    modules = [(path.stem, path.read_bytes()) for path in sorted((TESTS / "modules").glob("*.spv"))]
    for name, content in [*modules, *written().items()]:
        (folder / "module.spv").write_bytes(content)
        wrong, pictures = pictures_of(program, folder, name, Facts(read, content), "module.spv")
        if wrong:
            return f"  {name}\n{wrong}"
        found += pictures
    return all_drawn(found, folder)


def is_too_long(text):
    """Whether a line of a picture's text is longer than what `dot` reads at once: that of a name of 65,535 octets."""
    return any(len(line) > LONGEST_READ for line in text.splitlines())


def cases_drawn(program, folder):
    """The modules of all other cases, each under its own grammar file: the answer of `show` where it has no text, and
    else a text that `dot` draws, if no line of it is too long for that."""
    found = []
    for case, words in cases_with_words(folder):
        shown, got = asked(program, folder, "show", *words), asked(program, folder, "graph", *words)
        wrong = difference(Answer(b"", b"", 0), Answer(b"", got.err, got.status))
        wrong = difference(shown, got) if shown.status != 0 else wrong
        if wrong:
            return f"  {case.one('case')}\n{wrong}"
        found += [got.out] if shown.status == 0 and not is_too_long(got.out) else []
    try:
        drawn(found, folder)
    except ValueError as error:
        return f"  {error}"
    return None


# Hostile texts.

QUOTES = (
    'a" -> "b',
    '"];x[label="',
    "\\N",
    "\\",
    "\\G\\L",
    "a|b{c}<d>",
    "</FONT>",
    '<IMG SRC="/x"/>',
    "&#10;",
    "]]>",
    "%10",
    "",
)


def hostile_content():
    """A module whose names and texts are DOT and HTML."""
    texts = (*QUOTES, *TAGS, HOSTILE, "\ufffe\uffff\x0b")
    names = [f"OpName %{10 + at} {quoted(it)}" for at, it in enumerate(QUOTES[:4])]
    lines = [it for it in DECLARATIONS if not it.startswith(("OpName", "%52 "))] + ["%8 = OpTypeFunction %1"]
    strings = [f"%{200 + at} = OpString {quoted(it)}" for at, it in enumerate(texts)]
    functions, entries = [], []
    for at, it in enumerate(texts):
        of = 300 + 2 * at
        names.append(f"OpName %{of} {quoted(it)}")
        entries += [f"OpEntryPoint Kernel %{of} {quoted(it)}"] * (at % 2)
        functions += [f"%{of} = OpFunction %1 None %8", f"%{of + 1} = OpLabel", "OpReturn", "OpFunctionEnd"]
    entry = next(number for number, it in enumerate(lines) if it.startswith("OpEntryPoint"))
    at = next(number for number, it in enumerate(lines) if it.startswith("OpDecorate"))
    head = [*lines[:entry], *entries, *lines[entry:at], *strings, *names, *lines[at:]]
    return assembled(grammar_in(GRAMMAR), [*head, *BEGUN, *LOOP, *ENDED, *functions])


def hostile_drawn(program, folder):
    """No text of a module puts a node, an edge or an attribute into a picture."""
    content = hostile_content()
    (folder / "module.spv").write_bytes(content)
    facts = Facts(grammar_in(GRAMMAR), content)
    wrong, found = pictures_of(program, folder, "hostile", facts, "module.spv")
    return wrong or all_drawn(found, folder)


def hostile_grammar(program, folder):
    """No name of a grammar file does, either."""
    text = GRAMMAR.read_text(encoding="utf-8")
    found = []
    for it in ("Op<B>x</B>", "Op&amp;", 'OpX\\" ];', "OpX>];y[", "Op\\u001b\\u0085"):
        (folder / "grammar.json").write_text(text.replace('"OpReturn"', f'"{it}"'), encoding="utf-8")
        got = run(program, ["graph", "--grammar", "grammar.json", "--function", "3", KERNEL], folder, env=under())
        if (got.err, got.status) != (b"", 0):
            return f"  {it}: {got}"
        found.append(got.out)
    try:
        pictures = drawn(found, folder)
    except ValueError as error:
        return f"  {error}"
    wrong = [it for it in pictures if set(it.nodes) != {"3", "4"} or len(it.edges) != 1]
    return f"  {wrong}" if wrong else None


def red_walk(program, folder):
    """The walk on which a value is missing is red in the picture of its function, the use is red and bold, and so is
    nothing else."""
    got = asked(program, folder, "graph", "--function", "10", BROKEN)
    picture = drawn([got.out], folder)[0]
    red = {name for name, node in picture.nodes.items() if node.is_red}
    bold = [name for name, node in picture.nodes.items() if node.is_bold]
    steps: Set[Tuple[str, str]] = {(it[0], it[1]) for it in picture.edges if it[3]}
    fine = red == {"13", "15", "16"} and bold == ["16"] and steps == {("13", "15"), ("15", "16")}
    fine = fine and picture.nodes["16"].red_lines == ["19: %18 = OpIAdd %2 %17 %11"]
    return None if fine else f"  {picture}"


def in_documents(program, folder):
    """The picture in README is what the program has drawn now, by whatever version of `dot`."""
    got = asked(program, folder, "graph", "--function", "10", BROKEN)
    kept, now = picture_of(SHOWN.read_bytes()), drawn([got.out], folder)[0]
    return picture_differs(kept, now)


def refused_before_functions(program, folder):
    """Of a fault of words or instructions there is no picture, and of one of shapes or layout none of a function."""
    (folder / "short.spv").write_bytes(b"123")
    wrong = difference(Answer(b"fault W2\n", b"", 1), asked(program, folder, "graph", "short.spv"))
    (folder / "cut.spv").write_bytes(KERNEL.read_bytes()[:-4])
    line = Answer(b"fault L2 inst 9 word 29\n", b"", 1)
    wrong = wrong or difference(line, asked(program, folder, "graph", "--function", "3", "cut.spv"))
    whole = asked(program, folder, "graph", "cut.spv")
    return wrong or (None if whole.out.startswith(b"strict digraph") and whole.status == 0 else f"  {whole}")


def checks():
    """All of these."""
    found = [
        ("modules", modules_drawn),
        ("cases", cases_drawn),
        ("texts that are DOT and HTML", hostile_drawn),
        ("names of a grammar file that are DOT and HTML", hostile_grammar),
        ("a walk in red", red_walk),
        ("the one in README", in_documents),
        ("faults before functions", refused_before_functions),
    ]
    return [Check(f"pictures: {name}", LAYERS, run_it, TOOLS) for name, run_it in found]
