"""What `asm --explain` says of a text that fails: rule, line, where reading stopped, what is wanted and found."""

import json
import re
from dataclasses import dataclass

from reading.text import visible

from .cases import all_cases, grammar, laid_out
from .common import LAYERS as ALL_LAYERS
from .common import TESTS, Answer, Check, difference, run
from .ruled import PAGE, sentences
from .said import CONTROLS
from .usage import GRAMMAR, TEXT, under

LAYERS = frozenset(ALL_LAYERS)
KEYS = ["rule", "at", "column", "wanted", "found"]
END = "the end of the line"
SPACE = "a space"
MOST_SHOWN = 200
LONG = 100_000
HEADER = TEXT.read_text(encoding="utf-8").splitlines()[:5]


def asked(program, folder, *words, **how):
    """A run of `asm` under the grammar file of the profile."""
    return run(program, ["asm", *words], folder, **{"env": under(GRAMMAR), **how})


def sentence_of():
    """What each code says."""
    return dict(sentences(PAGE.read_text(encoding="utf-8")))


def is_shown(told, octets):
    """Whether a line shows a text: 200 characters, control characters as `\\xNN`, and ` ..` for others."""
    text = octets.decode("utf-8")
    return told == visible(text[:MOST_SHOWN]) + (" .." if len(text) > MOST_SHOWN else "")


def parts_of(answer):
    """The lines behind that of a fault, each as its key and its text."""
    return [
        tuple(line.partition(": ")[::2]) if ": " in line else (line.rstrip(":"), "")
        for line in answer.split("\n")[1:-1]
    ]


def is_found(told, rest):
    """Whether what is found stands at the column: the line's end, a space, a word, or a whole line of the header."""
    if not rest or rest.startswith(b" "):
        return told == (SPACE if rest else END)
    return is_shown(told, rest) or is_shown(told, rest.split(b" ")[0])


def differs(program, folder, words, content):
    """None if `asm --explain` of a text says what is true of it, beside `asm`, else what is wrong."""
    plain = asked(program, folder, *words)
    made = (folder / "O").read_bytes() if (folder / "O").exists() else None
    told = asked(program, folder, "--explain", *words)
    if plain.status != 1:
        again = (folder / "O").read_bytes() if (folder / "O").exists() else None
        return difference(plain, told) or (None if made == again else "  another module is made")
    head, code, number = plain.out, *re.fullmatch(rb"fault (S\d) line (\d+)\n", plain.out).groups()
    if not told.out.startswith(head) or (told.err, told.status) != (b"", 1) or not told.out.endswith(b"\n"):
        return f"  {told}"
    text = told.out.decode()
    parts = parts_of(text)
    if [key for key, _ in parts] != KEYS or CONTROLS.search(text):
        return f"  the keys are {[key for key, _ in parts]}: {text!r}"
    of = dict(parts)
    lines = content.split(b"\n")
    line = lines[int(number) - 1] if int(number) <= len(lines) else b""
    column = int(of["column"])
    rest = line[column - 1 :]
    wrong = []
    if of["rule"].replace("`", "") != sentence_of()[code.decode()]:
        wrong.append("rule")
    if not is_shown(of["at"], line):
        wrong.append("at")
    begins = column == 1 or line[column - 2 : column - 1] == b" " or rest[:1] in (b"", b" ")
    if not 1 <= column <= len(line) + 1 or not begins:
        wrong.append("column")
    if not of["wanted"]:
        wrong.append("wanted")
    if not is_found(of["found"], rest):
        wrong.append("found")
    return f"  {wrong} of {text!r}, line {line[:300]!r}" if wrong else None


def texts_of_cases(program, folder):
    """All texts of tests/texts and of cases of `asm`, each under its own grammar file."""
    count = 0
    for number, case in enumerate(all_cases()):
        if not case.one("run").startswith("asm ") or grammar(case) is None:
            continue
        place = folder / str(number)
        place.mkdir()
        words = laid_out(case, place)[1:]
        path = place / "F"
        if not path.is_file() or "-" in words or "--explain" in words:
            continue
        count += 1
        wrong = differs(program, place, words, path.read_bytes())
        if wrong:
            return f"  {case.one('case')}\n{wrong}"
    return None if count > 50 else f"  {count} texts"


# Single faults.


@dataclass(frozen=True)
class Row:
    """A line behind the header that fails: its code, the column, a pattern of what is wanted, and what is found."""

    line: str
    code: str
    column: int
    wanted: str
    found: str = END


ROWS = [
    Row("OpCapabilty Addresses", "S2", 1, "name of an instruction", "OpCapabilty"),
    Row("%1 OpTypeVoid", "S2", 4, "=", "OpTypeVoid"),
    Row("%1", "S2", 3, "="),
    Row("%1 = OpTypeViod", "S2", 6, "name of an instruction", "OpTypeViod"),
    Row("", "S2", 1, "name of an instruction"),
    Row("#70000", "S2", 1, "name of an instruction", "#70000"),
    Row("OpMemoryModel Physical65 OpenCL", "S3", 15, "AddressingModel", "Physical65"),
    Row("OpMemoryModel Physical64", "S3", 25, "MemoryModel"),
    Row("OpReturn 5", "S3", 10, END, "5"),
    Row("%4 = OpReturn", "S3", 1, "result", "%4"),
    Row("OpLabel", "S3", 1, "result", "OpLabel"),
    Row("x = OpLabel", "S2", 1, "name of an instruction", "x"),
    Row("%x = OpLabel", "S3", 1, "result", "%x"),
    Row("%2 = OpTypeFunction x", "S3", 21, "an id", "x"),
    Row("%2 = OpTypeFunction", "S3", 20, "an id"),
    Row("%2 = OpTypeInt x 0", "S3", 16, "number", "x"),
    Row("%2 = OpTypeInt 4294967296 0", "S4", 16, "number", "4294967296"),
    Row("%2 = OpTypeInt 32  0", "S3", 19, "number", SPACE),
    Row("%4294967296 = OpTypeVoid", "S4", 1, "result", "%4294967296"),
    Row("%2 = OpTypeFunction %4294967296", "S4", 21, "an id", "%4294967296"),
    Row('OpEntryPoint Kernel %3 "k', "S3", 24, "quotes", '"k'),
    Row("OpEntryPoint Kernel %3 k", "S3", 24, "quotes", "k"),
    Row("%9 = OpConstant %8 5", "S3", 20, "of a type", "5"),
    Row("%3 = OpFunction %1 Pure|Inline %2", "S3", 20, "FunctionControl", "Pure|Inline"),
    Row('OpEntryPoint Kernel %3 "k" x', "S3", 28, "an id", "x"),
    Row("OpReturn ", "S3", 9, END, SPACE),
]


def row_differs(row, program, folder):
    """None if a line fails as its row says."""
    content = "\n".join([*HEADER, row.line, ""]).encode()
    (folder / "F").write_bytes(content)
    got = asked(program, folder, "--explain", "--out", "O", "F").out.decode()
    wrong = differs(program, folder, ["--out", "O", "F"], content)
    if wrong:
        return wrong
    of = dict(parts_of(got))
    fine = got.startswith(f"fault {row.code} line 6\n") and (of["column"], of["found"]) == (str(row.column), row.found)
    return None if fine and re.search(row.wanted, of["wanted"]) else f"  wanted: {row}\n  got:    {got}"


def single_faults(program, folder):
    """Each code behind the header, with its column, what is wanted and what is found."""
    wrong = [it for it in (row_differs(row, program, folder) for row in ROWS) if it]
    return "\n".join(wrong) or None


def headers(program, folder):
    """A line of the header that is missing or has another form (S1), and a number of it that is too large (S4)."""
    texts = [(at, HEADER[:at]) for at in range(5)]
    texts += [(at, [*HEADER[:at], "; Something", *HEADER[at + 1 :]]) for at in range(5)]
    texts += [(2, [*HEADER[:2], "; Generator: 4294967296", *HEADER[3:]]), (3, [*HEADER[:3], "; Bound: 0", HEADER[4]])]
    for at, lines in texts:
        content = "".join(f"{line}\n" for line in lines).encode()
        (folder / "F").write_bytes(content)
        got = asked(program, folder, "--explain", "--out", "O", "F").out.decode()
        wrong = differs(program, folder, ["--out", "O", "F"], content)
        if wrong or f" line {at + 1}\n" not in got:
            return wrong or f"  {lines}: {got!r}"
        word = HEADER[at].split(" ")[1].rstrip(":")
        if word not in dict(parts_of(got))["wanted"]:
            return f"  {lines}: {got!r}"
    return None


def long_and_odd(program, folder):
    """Long lines are cut, control characters escaped, and nothing takes long."""
    lines = [
        "A" * LONG,
        "OpName %1 " + "x" * LONG,
        'OpName %1 "' + "\x1b[31m" * LONG,
        "OpReturn " + "ä" * LONG,
        "%" + "9" * LONG + " = OpLabel",
        'OpString "' + "\x85\u2028" * LONG + '"',
        'OpName %1 "' + "a" * 300_000 + '"',
        "OpReturn \x1b[2J",
        "\x1b[2J",
        "\tOpReturn",
        "OpReturn\r",
    ]
    for line in lines:
        content = "\n".join([*HEADER, line, ""]).encode()
        (folder / "F").write_bytes(content)
        wrong = differs(program, folder, ["--out", "O", "F"], content)
        got = asked(program, folder, "--explain", "--out", "O", "F")
        if wrong or len(got.out) > 20 * MOST_SHOWN:
            return wrong or f"  {len(got.out)} bytes of {line[:40]!r}"
    return None


def last_of_many(program, folder):
    """The fault of the last of many lines, widths told before it."""
    lines = [
        *HEADER[:3],
        "; Bound: 4194303",
        HEADER[4],
        "%1 = OpTypeInt 64 0",
        *["OpNop"] * 500_000,
        "%2 = OpConstant %1 x",
        "",
    ]
    content = "\n".join(lines).encode()
    (folder / "F").write_bytes(content)
    return differs(program, folder, ["--out", "O", "F"], content)


def hostile_names(program, folder):
    """No control character of a kind's name in a grammar file stands in what is wanted."""
    text = GRAMMAR.read_text(encoding="utf-8")
    for order in ("\\u001b[2J", "\\n", "\\u0085", "\\u007f"):
        name = f'"AddressingModel{order}"'
        (folder / "grammar.json").write_text(text.replace('"AddressingModel"', name), encoding="utf-8")
        content = "\n".join([*HEADER, "OpMemoryModel Physical65 OpenCL", ""]).encode()
        (folder / "F").write_bytes(content)
        words = ["--grammar", "grammar.json", "--out", "O", "F"]
        wrong = differs(program, folder, words, content)
        wanted = f"a value of AddressingModel{visible(json.loads(name)[len('AddressingModel'):])}"
        got = asked(program, folder, "--explain", *words)
        if wrong or dict(parts_of(got.out.decode()))["wanted"] != wanted:
            return wrong or f"  {got}, and not {wanted!r}"
    return None


def beside_output(program, folder):
    """Where OUT is the standard output the lines go to standard error; a text that is read makes the same module."""
    (folder / "F").write_text("\n".join([*HEADER, "OpRetur", ""]), encoding="utf-8")
    told = asked(program, folder, "--explain", "--out", "O", "F")
    wrong = difference(Answer(b"", told.out, 1), asked(program, folder, "--explain", "--out", "-", "F"))
    done = asked(program, folder, "--explain", "--out", "-", TEXT)
    return wrong or difference(Answer((TESTS / "modules/smallest-kernel.spv").read_bytes(), b"", 0), done)


def checks():
    """All of these."""
    found = [
        ("texts of cases", texts_of_cases),
        ("single faults", single_faults),
        ("headers", headers),
        ("long lines and odd ones", long_and_odd),
        ("the last of many lines", last_of_many),
        ("odd names of kinds", hostile_names),
        ("beside the output", beside_output),
    ]
    return [Check(f"reasons of texts: {name}", LAYERS, run_it) for name, run_it in found]
