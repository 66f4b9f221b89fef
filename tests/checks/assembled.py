"""`asm` gives back the bytes of each module that `show` has the text of, in both byte orders.

`show` refuses only what `check` tells a W or an I fault of. And each text that lies beside a module
of tests/modules is that module, as `asm` and as the second reading make it.
"""

import re
import struct

from reading.assemble import assembled

from .cases import grammar_read
from .common import TESTS, Answer, Check, difference, run

GRAMMAR = TESTS / "profile.json"
MODULES = TESTS / "modules"
MAGIC = struct.pack("<I", 0x07230203)
DONE = Answer(b"", b"", 0)
NO_LIST = re.compile(rb"fault [WI]\d+( inst \d+ word \d+)?\n")


def turned(content):
    """The same words with their bytes back to front."""
    return b"".join(content[at : at + 4][::-1] for at in range(0, len(content), 4))


def is_little(content):
    """Whether the words of a module stand in little byte order."""
    return content.startswith(MAGIC)


def not_made(program, folder, text, flags, wanted):
    """None if the module of the text in the file has these bytes, else what went wrong."""
    made = folder / "made"
    words = ["asm", "--grammar", GRAMMAR, "--out", made, *flags, text]
    wrong = difference(DONE, run(program, words, folder))
    if wrong is None and made.read_bytes() != wanted:
        wrong = "  the bytes are not the module's"
    return wrong


def wrong_with(program, folder, module, text):
    """None if the text of the module gives its bytes, else what went wrong."""
    content = module.read_bytes()
    little = content if is_little(content) else turned(content)
    file = folder / "text"
    file.write_bytes(text)
    for flags, wanted in (([], little), (["--big"], turned(little))):
        wrong = not_made(program, folder, file, flags, wanted)
        if wrong is not None:
            return f"  {module.name} {' '.join(flags)}\n{wrong}"
    return None


def wrongly_refused(program, folder, module, got):
    """None if `check` gives the W or I fault that `show` refuses the module with, else what went wrong."""
    wanted = run(program, ["check", "--grammar", GRAMMAR, module], folder)
    if wanted.status == 1 and NO_LIST.fullmatch(wanted.out):
        wrong = difference(wanted, got)
    else:
        wrong = f"  shown: {got}\n  check: {wanted}"
    return None if wrong is None else f"  {module.name}\n{wrong}"


def shown_and_made(program, folder):
    """Every module of tests/modules: its text gives its bytes, or its words are no list."""
    for module in sorted(MODULES.glob("*.spv")):
        answer = run(program, ["show", "--grammar", GRAMMAR, module], folder)
        if answer.status == 0:
            wrong = wrong_with(program, folder, module, answer.out)
        else:
            wrong = wrongly_refused(program, folder, module, answer)
        if wrong is not None:
            return wrong
    return None


def texts_beside(program, folder):
    """Every text of tests/modules: `asm` makes the module beside it, in the byte order that it has."""
    for text in sorted(MODULES.glob("*.spvasm")):
        content = text.with_suffix(".spv").read_bytes()
        flags = [] if is_little(content) else ["--big"]
        wrong = not_made(program, folder, text, flags, content)
        if wrong is not None:
            return f"  {text.name}\n{wrong}"
    return None


def texts_read(_program, _folder):
    """Of every text of tests/modules the second reading makes the module beside it, up to the order of bytes."""
    for text in sorted(MODULES.glob("*.spvasm")):
        content = text.with_suffix(".spv").read_bytes()
        made = assembled(grammar_read("profile.json"), text.read_text(encoding="utf-8").splitlines())
        if made != (content if is_little(content) else turned(content)):
            return f"  {text.name}: the second reading makes another module"
    return None


def checks():
    """The checks of the text."""
    layers = frozenset({"show", "text"})
    return [
        Check("assembled: every text by the second reading", frozenset(), texts_read),
        Check("assembled: every module", layers, shown_and_made),
        Check("assembled: every text beside a module", layers, texts_beside),
    ]
