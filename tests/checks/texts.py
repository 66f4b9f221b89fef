"""Hostile texts and grammar names: very long lines and very many, and names that are not plain.

What `asm` makes of a text is worked out here; what `show` then says of it must be that text again.
"""

import json
import subprocess
import sys
from array import array

from .common import TESTS, Answer, Check, difference, run

GRAMMAR = TESTS / "profile.json"
HEADER = b"; SPIR-V\n; Version: 1.6\n; Generator: 0\n; Bound: 4194303\n; Schema: 0\n"
HEADER_WORDS = (0x07230203, 0x00010600, 0, 4_194_303, 0)
FIRST_LINE = 6
DONE = Answer(b"", b"", 0)
MOST_WORDS = 4_194_304
LONGEST_TEXT = 262_131
MIB = 1 << 20
STRING = 7


def packed(words):
    """The words as bytes in little order."""
    found = array("I", words)
    if sys.byteorder == "big":
        found.byteswap()
    return found.tobytes()


def fault(code, line):
    """The answer to a text that fails with this code at this line."""
    return Answer(f"fault {code} line {line}\n".encode(), b"", 1)


def assembled(program, folder, text, grammar=GRAMMAR):
    """What `asm` answers of a text, and the bytes that it made."""
    file, made = folder / "text", folder / "made"
    file.write_bytes(text)
    answer = run(program, ["asm", "--grammar", grammar, "--out", made, file], folder)
    return answer, made.read_bytes()


def refused(text, code, line):
    """The check that a text fails so, and that nothing is made."""

    def check(program, folder):
        answer, made = assembled(program, folder, text())
        wrong = difference(fault(code, line), answer)
        return wrong if wrong or not made else f"  {len(made)} bytes were made"

    return check


def shown(program, folder, module, text, grammar=GRAMMAR):
    """None if the module is shown as the text, else what went wrong."""
    file = folder / "module.spv"
    file.write_bytes(module)
    words = ["show", "--grammar", grammar, file]
    return difference(Answer(text, b"", 0), run(program, words, folder))


def both_ways(module, text, grammar=lambda folder: GRAMMAR):
    """The check that a text gives a module, and the module that text."""

    def check(program, folder):
        file, words, lines = grammar(folder), module(), text()
        answer, made = assembled(program, folder, lines, file)
        wrong = difference(DONE, answer)
        if wrong is None and made != words:
            wrong = "  the bytes are not the module's"
        return wrong or shown(program, folder, words, lines, file)

    return check


def string_of(octets):
    """A module of one OpString of so many octets."""
    text = b"a" * octets + b"\0" * (4 - octets % 4)
    first = (2 + len(text) // 4) << 16 | STRING
    return packed((*HEADER_WORDS, first, 1)) + text


def string_line(octets):
    """Its text."""
    return HEADER + b'%1 = OpString "' + b"a" * octets + b'"\n'


def names(count):
    """A module that names so many ids, each by another name."""
    words = [packed(HEADER_WORDS)]
    for number in range(1, count + 1):
        name = f"name{number:07}".encode() + b"\0"
        words.append(packed((5 << 16 | 5, number)) + name)
    return b"".join(words)


def name_lines(count):
    """Its text."""
    lines = (f'OpName %{number} "name{number:07}"\n' for number in range(1, count + 1))
    return HEADER + "".join(lines).encode()


def grammar_of(opnames):
    """Writes a grammar file whose instructions have these names, opcodes from 0 and no operands."""

    def write(folder):
        entries = [
            {"opname": name, "opcode": opcode, "operands": []}
            for opcode, name in enumerate(opnames)
        ]
        path = folder / "names.json"
        path.write_text(json.dumps({"instructions": entries, "operand_kinds": []}))
        return path

    return write


# A name that makes each word of a module 25 octets of its text.
LONG_NAME = "OpNameOf24LettersInItAll"
ODD_NAMES = ("", "Op X", "Op\0X", "Op\rX", "\ufeffOpX", "Op\nX", "%1", "#1", "Op-X", "Opß")


def odd_names_are_not_read(program, folder):
    """Names that are not plain stand for nothing in a text."""
    grammar = grammar_of(ODD_NAMES)(folder)
    for opcode, name in enumerate(ODD_NAMES):
        if name == "#1":
            continue
        text = HEADER + f"#{opcode}\n{name}\n".encode()
        answer, _ = assembled(program, folder, text, grammar)
        wrong = difference(fault("S2", FIRST_LINE + 1), answer)
        if wrong:
            return f"  {name!r}\n{wrong}"
    return None


def generated(shape):
    """The check that a module of a shape with a grammar of its own is made of its text again."""

    def check(program, folder):
        words = [sys.executable, str(TESTS / "generate"), "--bytes", str(MIB), str(folder), shape]
        subprocess.run(words, check=True)
        grammar, module = folder / f"{shape}.json", folder / f"{shape}.spv"
        answer = run(program, ["show", "--grammar", grammar, module], folder)
        if answer.status != 0:
            return f"  not shown: {answer}"
        done, made = assembled(program, folder, answer.out, grammar)
        wrong = difference(DONE, done)
        if wrong is None and made != module.read_bytes():
            wrong = "  the bytes are not the module's"
        return wrong

    return check


def checks():
    """All of these. They need the text both ways."""
    many = MOST_WORDS - len(HEADER_WORDS)
    found = [
        ("a name of 16 MiB", refused(lambda: HEADER + b"A" * (16 * MIB), "S2", FIRST_LINE)),
        ("a header line of 16 MiB", refused(lambda: b"; SPIR-V" * (2 * MIB), "S1", 1)),
        ("a bound of 16 MiB", refused(lambda: HEADER[:48] + b"9" * (16 * MIB), "S1", 4)),
        ("an id of 16 MiB", refused(lambda: HEADER + b"OpName %" + b"9" * (16 * MIB), "S4", 6)),
        ("a text of 16 MiB", refused(lambda: string_line(16 * MIB), "S5", FIRST_LINE)),
        ("a line of 16 MiB without =", refused(lambda: HEADER + b"% =" * (5 * MIB), "S2", 6)),
        ("a million empty lines", refused(lambda: HEADER + b"\n" * 1_000_000, "S2", FIRST_LINE)),
        (
            "an empty line behind a million",
            refused(lambda: HEADER + b"OpNop\n" * 1_000_000 + b"\n", "S2", 1_000_006),
        ),
        (
            "one instruction too many",
            refused(lambda: HEADER + b"OpNop\n" * (many + 1), "S5", many + FIRST_LINE),
        ),
        (
            "the longest text",
            both_ways(lambda: string_of(LONGEST_TEXT), lambda: string_line(LONGEST_TEXT)),
        ),
        (
            "a text that is too long",
            refused(lambda: string_line(LONGEST_TEXT + 1), "S5", FIRST_LINE),
        ),
        ("200,000 different names", both_ways(lambda: names(200_000), lambda: name_lines(200_000))),
        (
            "a text of 100 MB",
            both_ways(
                lambda: packed(HEADER_WORDS + (1 << 16,) * many),
                lambda: HEADER + f"{LONG_NAME}\n".encode() * many,
                grammar_of([LONG_NAME]),
            ),
        ),
        (
            "names that are not plain",
            both_ways(
                lambda: packed(HEADER_WORDS + tuple(1 << 16 | n for n in range(len(ODD_NAMES)))),
                lambda: HEADER + "".join(f"#{n}\n" for n in range(len(ODD_NAMES))).encode(),
                grammar_of(ODD_NAMES),
            ),
        ),
        ("names that are not plain, read", odd_names_are_not_read),
        ("parameters of parameters", generated("deep")),
        ("masks of 32 named bits", generated("masks")),
    ]
    layers = frozenset({"show", "text"})
    return [Check(f"texts: {name}", layers, run_it) for name, run_it in found]
