"""What `rules` writes of each code, and what `explain` writes of a fault, beside what docs/PROFILE.md says of it.

The page has a table of the codes with a sentence each, and in its sections what breaks them: in
tables, or, where a row says `see below`, in a paragraph that begins with its code. And it has a table
of the lines of `explain`, which says of each key after which codes it comes.
"""

import re
from dataclasses import dataclass
from typing import List

from shapes.changes import with_extended

from . import cases, opencl
from .common import LAYERS as ALL_LAYERS
from .common import TESTS, Answer, Check, difference, run

PAGE = TESTS.parent / "docs/PROFILE.md"
SENTENCES = ["Code", "Rule"]
MEANINGS = ("Meaning", "Broken where")
LINES = ["Key", "Code", "Text"]
GRAMMAR = TESTS / "profile.json"
# Keys that come with none of these modules.
SELDOM = ("bit", "opcode", "row")
BELOW = "see below"
OPERATIONS = "each operation has its own conditions: docs/PROFILE.md has the table of operations"


@dataclass
class Table:
    """A table of the page: the names of its columns, and the cells of its rows."""

    columns: List[str]
    rows: List[List[str]]


def cells(line):
    """The cells of a line of a table, without marks of code."""
    return [cell.strip().replace("`", "") for cell in line.strip("|").split(" | ")]


def tables(text):
    """All tables of a page."""
    for part in re.findall(r"(?:^\|.*\n)+", text, re.MULTILINE):
        head, _, *rows = map(cells, part.splitlines())
        yield Table(head, rows)


def sentences(text):
    """Each code and its sentence, in the order of the page's table."""
    found = [table.rows for table in tables(text) if table.columns == SENTENCES]
    return [(code, sentence) for rows in found for code, sentence in rows]


def below(text, code):
    """What a paragraph says of a code."""
    if code == "Y5":
        return OPERATIONS
    return re.search(rf"^\*\*[^*]*\({code}\)\.\*\* (.*)$", text, re.MULTILINE)[1]


def meanings(text, codes):
    """Of each code the lines of what breaks it, each with the instructions at which it is reported before it."""
    found = {code: [] for code in codes}
    for table in tables(text):
        at = next((at for at, name in enumerate(table.columns) if name in MEANINGS), None)
        if at is None or table.columns[0] != "Code":
            continue
        for row in table.rows:
            if row[0] in found:
                line = below(text, row[0]) if row[at] == BELOW else ": ".join(row[1 : at + 1])
                found[row[0]].append(line)
    return found


def written(lines):
    """The answer of these lines."""
    return Answer("".join(f"{line}\n" for line in lines).encode(), b"", 0)


def plain(answer):
    """An answer without marks of code, which the cells of the page have lost too."""
    return Answer(answer.out.replace(b"`", b""), answer.err, answer.status)


def ruled(program, folder):
    """None if `rules` writes the page's table, and `rules CODE` its line and what breaks the code."""
    text = PAGE.read_text(encoding="utf-8")
    of_codes = sentences(text)
    lines = [f"{code}: {sentence}" for code, sentence in of_codes]
    wrong = [difference(written(lines), plain(run(program, ["rules"], folder)))]
    broken_where = meanings(text, [code for code, _ in of_codes])
    for (code, _), line in zip(of_codes, lines):
        wanted = written([line, *(f"    {it}" for it in broken_where[code])])
        wrong.append(difference(wanted, plain(run(program, ["rules", code], folder))))
    return "\n".join(filter(None, wrong)) or None


def is_among(code, cell):
    """Whether a code is among those that a cell names, as `all`, `I`, `P to G`, `D3 to D5` or `A1, not L2`."""
    if f"not {code}" in cell:
        return False
    for part in cell.split(", "):
        first, _, last = part.partition(" to ")
        order = "WIPLDYCMEFAGO"
        if part in ("all", code, code[0]) or (last and len(last) == 1 and order.index(code[0]) >= order.index(first)):
            return True
        if last and last[0] == code[0] and int(first[1:]) <= int(code[1:]) <= int(last[1:]):
            return True
    return False


def explained(folder):
    """The modules of tests/modules, those of cases that have an extended instruction, which are explained with its
    operands, and those of cases of `--opencl`: each with the words for that."""
    own = ["--grammar", GRAMMAR]
    yield from ((own, path) for path in sorted((TESTS / "modules").glob("*.spv")))
    contents = cases.written()
    extended = {name: contents[name] for name in with_extended(contents)}
    kernels = ["--opencl", "--grammar", TESTS / cases.OPENCL]
    for words, modules in ((["--extended", *own], extended), (kernels, opencl.written())):
        for name, content in modules.items():
            path = folder / f"{name}.spv"
            path.write_bytes(content)
            yield words, path


def keyed(program, folder):
    """None if the keys of the lines that explain modules are those of the page, both ways."""
    text = PAGE.read_text(encoding="utf-8")
    rows = next(table.rows for table in tables(text) if table.columns == LINES)
    wanted = {key: codes for keys, codes, _ in rows for key in keys.split(", ")}
    found, wrong = set(), []
    for words, path in explained(folder):
        lines = run(program, ["explain", *words, path], folder).out.decode().split("\n")[:-1]
        code = lines[0].split(" ")[1] if lines[1:] else ""
        keys = {line.split(": ")[0].rstrip(":") for line in lines[1:]}
        found |= keys
        wrong += [f"  {path.stem}, {code}: {key}" for key in keys if not is_among(code, wanted.get(key, ""))]
    wrong += [f"  no module has a line {key}" for key in wanted if key not in found and key not in SELDOM]
    return "\n".join(wrong) or None


def checks():
    """All codes, and all lines."""
    return [
        Check("rules beside docs/PROFILE.md", frozenset({"first path"}), ruled),
        Check("explain beside docs/PROFILE.md", frozenset(ALL_LAYERS), keyed),
    ]
