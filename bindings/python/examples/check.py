"""Says of each module whether it is valid, as what compilers make of OpenCL C; extended instructions are looked at too.

usage: python3 check.py [--grammar GRAMMAR] FILE..

Exit status 0 if all are valid, 1 if one is not, 2 for an error: a file that cannot be read, a grammar file that is
refused, or no memory.
"""

import sys
from pathlib import Path
from typing import List

import spvk


def check(grammar: spvk.Grammar, name: str) -> spvk.Verdict:
    """Prints the verdict on a file, and answers it."""
    verdict = grammar.check(Path(name).read_bytes(), opencl=True)
    print(f"{name}: {verdict}" if verdict else f"{name}: {verdict}: {verdict.sentence}")
    return verdict


def main(words: List[str]) -> int:
    """Does what the words ask, and answers the exit status."""
    named, files = (words[1:2], words[2:]) if words[:1] == ["--grammar"] else ([], words)
    if not files:
        print("usage: check.py [--grammar GRAMMAR] FILE..", file=sys.stderr)
        return 2
    grammar = spvk.Grammar(*(Path(name).read_bytes() for name in named))
    return 0 if all([check(grammar, name) for name in files]) else 1


if __name__ == "__main__":
    try:
        sys.exit(main(sys.argv[1:]))
    except OSError as error:
        print(f"check.py: {error.filename}: {error.strerror}", file=sys.stderr)
        sys.exit(2)
    except spvk.Error as error:
        print(f"check.py: {error}", file=sys.stderr)
        sys.exit(2)
