"""Says of each module what shows that it is not valid: the rule, the instruction, and what it names.

It is judged as what compilers make of OpenCL C; extended instructions are looked at too.

usage: python3 explain.py FILE..

Exit status 0 if all are valid, 1 if one is not, 2 for an error: a file that cannot be read, or no memory.
"""

import sys
from pathlib import Path
from typing import Iterator, List

import spvk


def lines_of(found: spvk.Evidence) -> Iterator[str]:
    """What shows a fault, for people."""
    yield f"{found.verdict}: {found.rule}"
    if found.at is not None:
        yield f"at instruction {found.at.inst}: {found.at.text}"
    if found.function is not None:
        yield f"in function {found.function}" + ("" if found.block is None else f", block {found.block}")
    if found.operand is not None and found.operand.id is not None:
        yield f"its operand {found.operand.index} is the id {found.operand.id}"
    if found.defined is not None:
        yield f"which instruction {found.defined.inst} defines: {found.defined.text}"
    if found.walk:
        yield "on the way of the blocks " + ", ".join(map(str, found.walk))


def explain(grammar: spvk.Grammar, name: str) -> bool:
    """Prints what there is to say of a file, and answers whether it is valid."""
    found = grammar.evidence(Path(name).read_bytes(), opencl=True)
    if found:
        print(f"{name}: valid")
    for number, line in enumerate(() if found else lines_of(found)):
        print(f"{name}: {line}" if number == 0 else f"    {line}")
    return bool(found)


def main(words: List[str]) -> int:
    """Does what the words ask, and answers the exit status."""
    if not words or words[0].startswith("-"):
        print("usage: explain.py FILE..", file=sys.stderr)
        return 2
    grammar = spvk.Grammar()
    return 0 if all([explain(grammar, name) for name in words]) else 1


if __name__ == "__main__":
    try:
        sys.exit(main(sys.argv[1:]))
    except OSError as error:
        print(f"explain.py: {error.filename}: {error.strerror}", file=sys.stderr)
        sys.exit(2)
    except spvk.Error as error:
        print(f"explain.py: {error}", file=sys.stderr)
        sys.exit(2)
