"""What tests of the crates read, as the files here give it: the constants of crates/spv_samples, and the grammar file
of the stored run of crates/spv."""

import re
import struct

from .cases import all_cases, pieces
from .common import TESTS

FOLDER = TESTS.parent / "crates/spv_samples/src"
STORED = TESTS.parent / "crates/spv/data/profile.json"
# Each module with its text: the constant's name, the module and the text.
MODULES = (
    ("SMALLEST_KERNEL", "modules/smallest-kernel.spv", "modules/smallest-kernel.spvasm"),
    ("LOOP_WITH_PHI", "modules/loop-with-phi.spv", "modules/loop-with-phi.spvasm"),
    (
        "LOAD_WITH_MASK",
        "modules/show-a-mask-of-two-bits.spv",
        "texts/assemble-a-mask-of-two-bits.spvasm",
    ),
    (
        "CALL_OF_LATER_FUNCTION",
        "modules/call-of-a-later-function.spv",
        "modules/call-of-a-later-function.spvasm",
    ),
)
REACHES_VALUES = re.compile(r"valid|fault [AG]\d .*")


def words(data):
    """The words of a module of either order, in hexadecimal, as lines."""
    order = "<" if data[:4] == b"\x03\x02\x23\x07" else ">"
    found = ["%x" % word for (word,) in struct.iter_unpack(order + "I", data)]
    lines = [[]]
    for word in found:
        if sum(len(other) + 1 for other in lines[-1]) + len(word) > 104:
            lines.append([])
        lines[-1].append(word)
    return "\n".join(" ".join(line) for line in lines)


def constant(name, text, comment):
    """A constant of a text."""
    return f'/// {comment}\npub const {name}: &str = r#"{text}"#;\n'


def profile():
    """The file with the grammar file."""
    text = (TESTS / "profile.json").read_text(encoding="utf-8")
    head = "//! The grammar file with every instruction of the profile. Written by `tests/samples`.\n\n"
    return head + constant("PROFILE", text, "The text of `tests/profile.json`.")


def modules():
    """The file with the modules that have a text."""
    parts = ["//! Modules with their texts. Written by `tests/samples`.\n\nuse crate::Sample;\n"]
    for name, module, text in MODULES:
        shown = (TESTS / text).read_text(encoding="utf-8")
        parts.append(
            f"/// `tests/{module}`.\npub const {name}: Sample<'static> = Sample {{\n"
            f'    words: "{words((TESTS / module).read_bytes())}",\n    text: r#"{shown}"#,\n}};\n'
        )
    return "\n".join(parts)


def reaches_values(case):
    """Whether the rules before those of values on walks are unbroken in the module of a case."""
    run, grammar, out = case.one("run"), case.all("G"), case.all("out")
    if not run.startswith(("check ", "trace ")) or grammar != ["profile.json"] or case.all("old"):
        return False
    if run.startswith("trace ") and not case.all("err"):
        return bool(out) and not re.match("fault [^AG]", out[0])
    return bool(out) and REACHES_VALUES.fullmatch(out[0]) is not None


def rows():
    """The file with the modules of all cases that are checked up to the values on walks."""
    found = {}
    for case in all_cases():
        file = case.all("F")
        is_whole = case.all("text") or len(file) == 1 and re.fullmatch(r"modules/\S+\.spv", file[0])
        if reaches_values(case) and is_whole:
            found.setdefault(pieces(case)[0][0], case.one("case"))
    text = "".join(f"\n{name}:\n{words(content)};" for content, name in found.items())
    head = "//! Modules that are checked up to the values on walks. Written by `tests/samples`.\n\n"
    comment = "Each module of such a case under `tests/profile.json`: the case's name, and its words."
    return head + constant("CHECKED_TO_VALUES", text + "\n", comment)


def files():
    """The files that are written, each with its text."""
    return {
        FOLDER / "profile.rt": profile(),
        FOLDER / "modules.rt": modules(),
        FOLDER / "rows.rt": rows(),
        STORED: (TESTS / "profile.json").read_text(encoding="utf-8"),
    }


def differing():
    """The files that have another text."""
    return [
        path
        for path, text in files().items()
        if not path.exists() or path.read_text(encoding="utf-8") != text
    ]
