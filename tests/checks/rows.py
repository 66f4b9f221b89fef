"""The stored run of crates/spv_rows: that its files are what tests/cases makes of them.

The file `data/rows` has what each case gives (README.md, "The stored rows"), `stdout` the whole answer that it wants.
Both are made of the cases alone, and of nothing that the program says.
"""

import shlex

from .cases import all_cases, grammar, made, pieces, wanted_answer
from .common import TESTS, Check, layers_of, layers_that_stand

CRATE = TESTS.parent / "crates/spv_rows"
PROFILE = "profile.json"
REMEDY = "write it with tests/rows --write"


def stored_cases():
    """The cases whose layers stand, those with one grammar file behind one another."""
    stands = layers_that_stand()
    groups = {}
    for case in all_cases():
        if layers_of(case.one("layer")) <= stands:
            groups.setdefault(grammar(case), []).append(case)
    return groups


def grammar_lines(case, content):
    """The lines that give a grammar file: `profile`, which stands in a crate, with what the case changes there; else
    the text as it is where it is one line, or its bytes in hexadecimal."""
    if case.one("G") == PROFILE:
        yield "profile"
        for old, new in zip(case.all("old"), case.all("new")):
            yield f"old {old}"
            yield f"new {new}"
        return
    is_line = content and b"\n" not in content and not content.endswith(b"\r")
    try:
        text = content.decode() if is_line else None
    except UnicodeDecodeError:
        text = None
    yield f"grammar-hex {content.hex()}" if text is None else f"grammar {text}"


def input_line(content, times):
    """The line that gives a part of the file that is read."""
    return f"input {content.hex()}" if times == 1 else f"times {times} {content.hex()}"


def row_lines(case):
    """The lines of a case."""
    yield f"row {case.one('case')}"
    for word in shlex.split(case.one("run")):
        yield f"word {word}"
    for content, times in pieces(case):
        yield input_line(content, times)
    yield "run"


def rows():
    """What the file `rows` holds."""
    lines = []
    for content, found in stored_cases().items():
        if content is not None:
            lines.extend(grammar_lines(found[0], content))
        for case in found:
            lines.extend(row_lines(case))
    return "".join(line + "\n" for line in lines).encode()


def answer(case):
    """What is printed of a case: its name with the exit status and the counts of bytes, and these bytes."""
    wanted, content = wanted_answer(case), made(case) or b""
    counts = f"out {len(wanted.out)}, err {len(wanted.err)}, made {len(content)}"
    head = f"== {case.one('case')}: exit {wanted.status}, {counts}\n".encode()
    return head + wanted.out + wanted.err + (content.hex().encode() + b"\n" if content else b"")


def stdout():
    """What the program must print."""
    return b"".join(answer(case) for found in stored_cases().values() for case in found)


def files():
    """The files of the stored run, with what they must hold."""
    return {CRATE / "data/rows": rows(), CRATE / "stdout": stdout()}


def wrong_files(_program, _folder):
    """None if the files hold what the cases make of them, else which does not."""
    for path, content in files().items():
        if not path.exists() or path.read_bytes() != content:
            return f"  {path.relative_to(TESTS.parent)} is not what tests/cases makes of it; {REMEDY}"
    return None


def checks():
    """One check, of both files."""
    return [Check("rows: the stored run", frozenset(), wrong_files)]
