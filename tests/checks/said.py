"""Errors that say why: one line where the standard error goes to a program; on a terminal, and with `--verbose`, more.

What follows the line is wanted by parts of it, not to the letter: what is wrong, and what to do next.
"""

import json
import os
import pty
import re
import signal
import struct
import subprocess
import threading
from dataclasses import dataclass, field
from typing import Dict, List, Tuple

from .common import LAYERS as ALL_LAYERS
from .common import SECONDS, TESTS, Answer, Check, difference, run, shown
from .usage import BAD_USE, GRAMMAR, KERNEL, TEXT, under

LAYERS = frozenset(ALL_LAYERS)
VERBOSE = "--verbose"
HELP = "see: spv help"
LATER = TESTS / "modules/call-of-a-later-function.spv"
# What asks a terminal to do something: to change its title, to clear itself, to move.
ORDERS = ("\x1b]0;title\x07", "\x1b[2J", "\r\x1b[A", "\x7f\x08", "line\nfeed", "tab\tstop", "\x9b2J", "next\x85line")
# Control characters but for the line feed: none may stand in what is said.
CONTROLS = re.compile("[\x00-\x09\x0b-\x1f\x7f-\x9f]")


@dataclass(frozen=True)
class Row:
    """A wrong command line: its words, the line that tells it, and parts of what follows, by regular expressions."""

    words: List[str]
    line: str
    parts: Tuple[str, ...]
    out: str = ""
    variable: str = ""
    how: Dict = field(default_factory=dict)

    def __str__(self):
        return f"spv {' '.join(map(shown_word, self.words))}"


def shown_word(word):
    """A word for people."""
    return repr(word) if CONTROLS.search(word) or not word else word


def use(*words, parts=(), to="", **how):
    """A row of a command line that fits nothing; `see:` names the help of a command, or that of all."""
    see = f"{HELP} {to}" if to else HELP
    return Row(list(map(str, words)), "error use", (*parts, f"(?m)^{re.escape(see)}$"), **how)


def file(*words, parts=(), line="error file", **how):
    """A row of a file that does not open, or cannot be read or written."""
    return Row(list(map(str, words)), line, parts, **how)


ABSENT = "[Nn]o such file|not found|does not exist"
NO_SPACE = "[Nn]o (storage )?space"
# What `--json` says of a file that is not there.
ABSENT_OBJECT = '{"file":"absent.spv","verdict":"error","error":"file"}\n'
USES = [
    use("chek", KERNEL, parts=("chek",)),
    use("Check", KERNEL, parts=("Check",)),
    use("", parts=()),
    use("--gramar", GRAMMAR, "check", KERNEL, parts=("--gramar",)),
    use("help", "nothing", parts=("nothing",)),
    use("check", to="check", parts=("FILE",)),
    use("check", "--gramar", GRAMMAR, KERNEL, to="check", parts=("--gramar",)),
    use("check", KERNEL, "--grammar", to="check", parts=("--grammar",)),
    use("check", "--grammar", GRAMMAR, "--grammar", GRAMMAR, KERNEL, to="check", parts=("--grammar",)),
    use("check", "--big", KERNEL, to="check", parts=("--big",)),
    use("check", "-x.spv", to="check", parts=("-x|-x.spv",)),
    use("check", "-", "-", to="check", parts=("-",)),
    use("check", "-H", "--no-filename", KERNEL, to="check", parts=("filename",)),
    use("check", "--quiet=1", KERNEL, to="check", parts=("--quiet",)),
    use("check", "--as-1.5", KERNEL, to="check", parts=("--as-1.5",)),
    use("check", "--full", KERNEL, to="check", parts=("--full",)),
    use("explain", to="explain", parts=("FILE",)),
    use("explain", "--full=1", KERNEL, to="explain", parts=("--full",)),
    use("explain", "--full", KERNEL, "--full", to="explain", parts=("--full",)),
    use("show", KERNEL, KERNEL, to="show", parts=(re.escape(str(KERNEL)),)),
    use("show", to="show", parts=("FILE",)),
    use("annotate", to="annotate", parts=("FILE",)),
    use("annotate", "--color", "sometimes", KERNEL, to="annotate", parts=("sometimes|--color|WHEN",)),
    use("annotate", "--pdf", KERNEL, to="annotate", parts=("--pdf",)),
    use("graph", to="graph", parts=("FILE",)),
    use("graph", "--function", KERNEL, to="graph", parts=("FILE",)),
    use("graph", "--html", KERNEL, to="graph", parts=("--html",)),
    use("rules", "--json", "A9", to="rules", parts=("A9|no code",)),
    use("asm", TEXT, to="asm", parts=("--out",)),
    use("asm", "--out", "made", to="asm", parts=("FILE",)),
    use("asm", "--out", "made", TEXT, "second", to="asm", parts=("second",)),
    use("trace", "--limit", "5", KERNEL, to="trace", parts=("--function",)),
    use("trace", "--function", "3", KERNEL, to="trace", parts=("--limit",)),
    use("trace", "--function", "3", "--limit", "4294967296", KERNEL, to="trace", parts=("4294967296|N ",)),
    use("trace", "--function", "3", "--limit", "5", "--choices", "0,,1", KERNEL, to="trace", parts=("0,,1|LIST",)),
    use("rules", "A9", to="rules", parts=("A9|no code",)),
    use("rules", "A1", "A2", to="rules", parts=("A2",)),
    use("grammar", "one", "two", to="grammar", parts=("two",)),
]
FILES = [
    file("check", "absent.spv", parts=("absent\\.spv", "open", ABSENT)),
    file("check", "*.spv", parts=("\\*\\.spv", "open", ABSENT)),
    file("check", "folder", parts=("folder", "read|open", "[Ii]s a directory|directory")),
    file("check", "/proc/self/mem", parts=("/proc/self/mem", "read", "[Ii]nput/output error|I/O")),
    file("check", KERNEL.name + "/x", parts=("open",)),
    file("check", "--grammar", "absent.json", KERNEL, parts=("absent\\.json", "open", ABSENT)),
    file("check", KERNEL, parts=("absent\\.json", "open", ABSENT), variable="absent.json"),
    file("explain", "-H", "absent.spv", parts=("absent\\.spv", "open", ABSENT), line="absent.spv: error file"),
    file("show", "absent.spv", parts=("absent\\.spv", "open", ABSENT)),
    file("annotate", "absent.spv", parts=("absent\\.spv", "open", ABSENT)),
    file("annotate", "--html", "folder", parts=("folder", "read|open", "[Ii]s a directory|directory")),
    file("graph", "absent.spv", parts=("absent\\.spv", "open", ABSENT)),
    file(
        *("check", "--json", "absent.spv"),
        parts=("absent\\.spv", "open", ABSENT),
        line="absent.spv: error file",
        out=ABSENT_OBJECT,
    ),
    file("trace", "--function", "3", "--limit", "5", "absent.spv", parts=("absent\\.spv", "open", ABSENT)),
    file("asm", "--out", "made", "absent.txt", parts=("absent\\.txt", "open", ABSENT)),
    file("asm", "--out", "absent/out", TEXT, parts=("absent/out", "writ|creat|make", ABSENT)),
    file("asm", "--out", "folder", TEXT, parts=("folder", "writ|creat|make", "[Ii]s a directory|directory")),
    file("asm", "--out", "/dev/full", TEXT, parts=("/dev/full", "writ", NO_SPACE)),
    file("asm", "--out", "other", "picture", parts=("picture", "text|UTF-8")),
    file("grammar", "absent.json", parts=("absent\\.json", "open", ABSENT)),
]


def laid_out(folder):
    """A folder, a file that is no text, and one that is no JSON."""
    (folder / "folder").mkdir()
    (folder / "picture").write_bytes(b"\x89PNG\r\n\x1a\n\0\0\0\rIHDR\xff\xfe")
    (folder / "refused.json").write_bytes(b"[1")


def environment(row):
    """The environment of a row: the built-in grammar, or a file that SPV_GRAMMAR names."""
    return under(row.variable or None)


def on_terminal(program, words, folder, **how):
    """A run whose standard error is a terminal."""
    ours, theirs = pty.openpty()
    found = []

    def listen():
        try:
            while True:
                part = os.read(ours, 65536)
                if not part:
                    return
                found.append(part)
        except OSError:  # the terminal's other end is closed
            pass

    how = {"stdin": subprocess.DEVNULL, "stdout": subprocess.PIPE, **how}
    with subprocess.Popen([str(program), *words], cwd=folder, stderr=theirs, **how) as child:
        os.close(theirs)
        listener = threading.Thread(target=listen)
        listener.start()
        late = threading.Timer(SECONDS, child.kill)
        late.start()
        out = child.communicate()[0] or b""
        late.cancel()
        listener.join()
    os.close(ours)
    return Answer(out, b"".join(found).replace(b"\r\n", b"\n"), child.returncode)


def is_said(row, got):
    """None if a line is followed by what it must be: the parts, in lines without control characters."""
    text = got.err.decode("utf-8", "surrogateescape")
    line, _, rest = text.partition("\n")
    if (line, got.status, got.out.decode()) != (row.line, 2, row.out) or not rest.endswith("\n"):
        return f"  {got}"
    if CONTROLS.search(text):
        return f"  a control character: {got}"
    lacking = [part for part in row.parts if not re.search(part, rest)]
    return f"  lacks {lacking}: {got}" if lacking else None


def verbose_words(row):
    """The words of a row with `--verbose` among them."""
    return [*row.words, VERBOSE] if row.words[0] == "help" else [*row.words[:1], VERBOSE, *row.words[1:]]


def in_a_pipe(row, program, folder):
    """None if a wrong command line has its one line where it goes to a program."""
    wanted = Answer(row.out.encode(), f"{row.line}\n".encode(), 2)
    return difference(wanted, run(program, row.words, folder, env=environment(row), **row.how))


def each_said(row, program, folder):
    """None if a row has one line in a pipe, and more on a terminal and with `--verbose`, alike in both."""
    env = environment(row)
    terminal = on_terminal(program, row.words, folder, env=env, **row.how)
    asked = run(program, verbose_words(row), folder, env=env, **row.how)
    wrong = in_a_pipe(row, program, folder) or is_said(row, terminal)
    return wrong or is_said(row, asked)


def all_said(rows):
    """The check of some rows."""

    def check(program, folder):
        laid_out(folder)
        for row in rows:
            wrong = each_said(row, program, folder)
            if wrong:
                return f"  {row}\n{wrong}"
        return None if not (folder / "made").exists() else "  OUT was made"

    return check


def alone(program, folder):
    """`spv` alone: its line in a pipe, and on a terminal the help behind it."""
    wrong = difference(BAD_USE, run(program, [], folder, env=under()))
    if wrong:
        return wrong
    text = run(program, ["help"], folder, env=under()).out
    got = on_terminal(program, [], folder, env=under())
    fine = got.err.split() == [b"error", b"use", *text.split()] and got.err.endswith(b"\n")
    fine = fine and (got.out, got.status) == (b"", 2)
    return None if fine else f"  {got}"


def nothing_of_success(program, folder):
    """What succeeds says nothing on a terminal either, and `--verbose` changes neither verdicts nor texts."""
    rows = [
        ["check", KERNEL],
        ["check", KERNEL, LATER],
        ["explain", TESTS / "modules/value-missing-on-one-branch.spv"],
        ["check", "--json", KERNEL, LATER],
        ["explain", "--json", TESTS / "modules/value-missing-on-one-branch.spv"],
        ["show", KERNEL],
        ["annotate", KERNEL],
        ["annotate", "--function", "10", TESTS / "modules/value-missing-on-one-branch.spv"],
        ["annotate", "--html", TESTS / "modules/value-missing-on-one-branch.spv"],
        ["graph", LATER],
        ["graph", "--function", "10", TESTS / "modules/value-missing-on-one-branch.spv"],
        ["asm", "--out", "-", TEXT],
        ["asm", "--explain", "--out", "-", TEXT],
        ["trace", "--function", "3", "--limit", "9", KERNEL],
        ["rules"],
        ["rules", "--json"],
        ["rules", "a1"],
        ["grammar"],
        ["check", "--quiet", TESTS / "modules/value-missing-on-one-branch.spv"],
    ]
    for row in rows:
        words = list(map(str, row))
        wanted = run(program, words, folder, env=under())
        if wanted.err or wanted.status not in (0, 1):
            return f"  {words}: {wanted}"
        wrong = difference(wanted, on_terminal(program, words, folder, env=under()))
        wrong = wrong or difference(wanted, run(program, [*words, VERBOSE], folder, env=under()))
        if wrong:
            return f"  {words}\n{wrong}"
    return None


def refused_once(program, folder):
    """`--verbose` stands once, without a value."""
    kernel = str(KERNEL)
    for words in ["check", VERBOSE, VERBOSE, kernel], ["check", f"{VERBOSE}=1", kernel], [VERBOSE], ["help", VERBOSE]:
        got = run(program, words, folder, env=under())
        if got.err.split(b"\n")[0] != b"error use" or (got.out, got.status) != (b"", 2):
            return f"  {words}: {got}"
    return None


def no_orders(program, folder):
    """No control character of a name, a word or a grammar file reaches a terminal."""
    rows = []
    for order in ORDERS:
        (folder / "made.json").write_text(json.dumps(bad_kind(f"Bad{order}")), encoding="utf-8")
        rows += [
            ["check", order],
            ["check", f"--{order}", str(KERNEL)],
            [order],
            ["rules", order],
            ["help", order],
            ["check", "--grammar", order, str(KERNEL)],
            ["check", "-H", order],
            ["check", order, str(KERNEL)],
            ["annotate", order],
            ["annotate", "--color", order, str(KERNEL)],
            ["annotate", "--html", "--function", order, str(KERNEL)],
            ["graph", order],
            ["asm", "--out", f"{order}/x", str(TEXT)],
            ["trace", "--function", order, "--limit", "5", str(KERNEL)],
            ["grammar", order],
            ["check", "--grammar", "made.json", str(KERNEL)],
        ]
        for words in rows:
            terminal = on_terminal(program, words, folder, env=under())
            asked = run(program, [*words[:1], VERBOSE, *words[1:]], folder, env=under())
            for got in (terminal, asked):
                text = got.err.decode("utf-8", "surrogateescape")
                if got.status != 2 or CONTROLS.search(text) or not text.strip():
                    return f"  {words}: {got}"
        rows.clear()
    return None


def hostile_entry(program, folder):
    """The names of entry points that `trace` tells have their control characters escaped, and long ones do no harm."""
    content = bytearray(KERNEL.read_bytes())
    at = content.find(b"k\0\0\0")
    content[at : at + 4] = b"\x1b[2\0"
    path = folder / "kernel.spv"
    path.write_bytes(content)
    words = ["trace", "--function", "1", "--limit", "5", "kernel.spv"]
    wanted = Answer(b"", b"error X1\n", 2)
    wrong = difference(wanted, run(program, words, folder, env=under()))
    got = on_terminal(program, words, folder, env=under())
    text = got.err.decode()
    fine = text.startswith("error X1\n") and "3" in text and "\\x1b[2" in text and not CONTROLS.search(text)
    return wrong or (None if fine and got.status == 2 else f"  {got}")


def hostile_file(program, folder):
    """The name of a file has its control characters escaped, those from U+0080 too: before a verdict, in an error, and
    in a word that fits no command."""
    name, shown_name = "a\\\x7f\x9b31m\xa0.spv", "a\\\\\\x7f\\xc2\\x9b31m\xa0.spv"
    (folder / name).write_bytes(KERNEL.read_bytes())
    rows = [
        (["check", "-H", name], Answer(f"{shown_name}: valid\n".encode(), b"", 0)),
        (["check", "-H", "\x80"], Answer(b"", b"\\xc2\\x80: error file\n", 2)),
    ]
    for words, wanted in rows:
        wrong = difference(wanted, run(program, words, folder, env=under()))
        if wrong:
            return f"  {words}\n{wrong}"
    for words in (["show", "no\x9b31m"], ["check", "--\x9b31m"], ["annotate", "--function", "\x9b", str(KERNEL)]):
        text = run(program, [*words[:1], VERBOSE, *words[1:]], folder, env=under()).err.decode()
        if CONTROLS.search(text) or not text:
            return f"  {words}: {text!r}"
    return None


# Where a grammar file or a module is at fault.


def bad_kind(name):
    """A grammar file whose third instruction's second operand is of a kind that there is not (J4)."""
    operands = [{"kind": "IdRef"}, {"kind": name}]
    instructions = [{"opname": f"Op{number}", "opcode": number} for number in range(2)]
    instructions.append({"opname": "OpBad", "opcode": 2, "operands": operands})
    return {"instructions": instructions, "operand_kinds": [{"kind": "IdRef", "category": "Id"}]}


def of_grammar(change):
    """A grammar file as above, changed by a function, and with its kind that there is not there after all."""
    tree = bad_kind("IdRef")
    change(tree)
    return tree


def set_at(*path):
    """The function that sets what stands at the end of a path of keys to the last of these."""

    def change(tree):
        *places, key, value = path
        for place in places:
            tree = tree[place]
        if value is None:
            del tree[key]
        else:
            tree[key] = value

    return change


def composite(*bases):
    """A kind of these bases."""
    return {"kind": "IdRef", "category": "Composite", "bases": list(bases)}


PLACES = [
    ("J4", bad_kind("IdRefs"), ("instructions\\[2\\]\\.operands\\[1\\]\\.kind", "IdRefs")),
    ("J2", of_grammar(set_at("instructions", 1, "opname", None)), ("instructions\\[1\\]", "opname")),
    ("J2", of_grammar(set_at("instructions", 1, "opname", 7)), ("instructions\\[1\\]\\.opname",)),
    ("J2", of_grammar(set_at("instructions", {})), ("instructions",)),
    ("J2", of_grammar(set_at("operand_kinds", None)), ("operand_kinds",)),
    ("J3", of_grammar(set_at("instructions", 0, "opcode", 65536)), ("instructions\\[0\\]\\.opcode", "65536")),
    ("J5", of_grammar(set_at("operand_kinds", 0, "category", "Ids")), ("operand_kinds\\[0\\]\\.category", "Ids")),
    (
        "J5",
        of_grammar(set_at("instructions", 2, "operands", 0, "quantifier", "+")),
        ("instructions\\[2\\]\\.operands\\[0\\]\\.quantifier", "\\+"),
    ),
    ("J6", of_grammar(set_at("operand_kinds", 0, composite("IdResult"))), ("operand_kinds\\[0\\]\\.bases",)),
    ("J7", of_grammar(set_at("operand_kinds", 0, composite())), ("operand_kinds\\[0\\]",)),
]


def places_of_grammars(program, folder):
    """Of a refused grammar file the place is reported, what stands there and what is wanted; the file's name, too."""
    for code, tree, parts in PLACES:
        path = folder / "grammar.json"
        if code == "J6":
            tree["operand_kinds"].append({"kind": "IdResult", "category": "Id"})
        path.write_text(json.dumps(tree), encoding="utf-8")
        for words in ["check", "--grammar", "grammar.json", str(KERNEL)], ["grammar", "grammar.json"]:
            wrong = each_said(Row(words, f"error {code}", parts), program, folder)
            if wrong:
                return f"  {code}, {' '.join(words)}\n{wrong}"
    return None


def no_json(program, folder):
    """Of a grammar file that is no JSON that is said."""
    laid_out(folder)
    for name in ("refused.json", "picture"):
        wrong = each_said(Row(["check", "--grammar", name, str(KERNEL)], "error J1", ("JSON",)), program, folder)
        if wrong:
            return f"  {name}\n{wrong}"
    return None


def entry_points(program, folder):
    """After X1 the entry points are reported, by the ids of their functions and by their names."""
    rows = [
        Row(["trace", "--function", "1", "--limit", "5", str(KERNEL)], "error X1", ("\\b3\\b", '"k"|\\bk\\b')),
        Row(["trace", "--function", "20", "--limit", "5", str(LATER)], "error X1", ("\\b10\\b", '"k"|\\bk\\b')),
        Row(["trace", "--function", "l", "--limit", "5", str(LATER)], "error X1", ("\\b10\\b", '"k"|\\bk\\b')),
    ]
    return next(filter(None, (each_said(row, program, folder) for row in rows)), None)


def module_for_text(program, folder):
    """`asm` of a module says that it is no text; `check` of a text has its verdict, and no error."""
    content = struct.pack("<5I", 0x07230203, 0x00010600, 0xFFFEFDFC, 9, 0)
    (folder / "module").write_bytes(content)
    wrong = each_said(Row(["asm", "--out", "made", "module"], "error file", ("module", "text|UTF-8")), program, folder)
    if wrong:
        return wrong
    got = on_terminal(program, ["check", str(TEXT)], folder, env=under())
    fine = got.out.startswith(b"fault W") and got.err.startswith(b"help: ") and got.status == 1
    return None if fine else f"  {got}"


def earlier_version(program, folder):
    """Of a module of an earlier version each command that writes the verdict alone says on a terminal what `explain`
    says of it; `explain` says it once, and nothing is said in a file."""
    (folder / "old.spv").write_bytes(KERNEL.read_bytes()[:4] + struct.pack("<I", 0x00010400) + KERNEL.read_bytes()[8:])
    told = run(program, ["explain", "old.spv"], folder, env=under()).out.decode()
    help_line = next(line for line in told.splitlines(True) if line.startswith("help: "))
    words = [["check"], ["show"], ["annotate"], ["graph"], ["trace", "--function", "3", "--limit", "5"]]
    for command in words:
        got = on_terminal(program, [*command, "old.spv"], folder, env=under())
        if got != Answer(b"fault W5\n", help_line.encode(), 1):
            return f"  {command}\n  {got}"
        if run(program, [*command, "old.spv"], folder, env=under()).err:
            return f"  {command}: told without a terminal"
    for command in (["explain"], ["check", "--quiet"], ["check", "--as-1.6"]):
        if on_terminal(program, [*command, "old.spv"], folder, env=under()).err:
            return f"  {command}: told twice"
    return None


def names_among_several(program, folder):
    """Of several files each one that is not read has its line and what follows it; the verdicts of the others stay."""
    laid_out(folder)
    words = ["check", "absent.spv", str(KERNEL), "folder"]
    plain = run(program, words, folder, env=under())
    wanted = Answer(f"{KERNEL}: valid\n".encode(), b"absent.spv: error file\nfolder: error file\n", 2)
    wrong = difference(wanted, plain)
    for got in on_terminal(program, words, folder, env=under()), run(program, [*words, VERBOSE], folder, env=under()):
        lines = got.err.decode().splitlines()
        at = [lines.index(line) for line in wanted.err.decode().splitlines() if line in lines]
        is_said = len(at) == 2 and at[0] == 0 and at[0] + 1 < at[1] < len(lines) - 1
        if not is_said or not re.search(ABSENT, got.err.decode()) or (got.out, got.status) != (wanted.out, 2):
            wrong = wrong or f"  {got}"
    return wrong


WRITE = [
    ["check", str(KERNEL)],
    ["check", "--json", str(KERNEL)],
    ["show", str(KERNEL)],
    ["annotate", str(KERNEL)],
    ["annotate", "--html", str(KERNEL)],
    ["graph", str(KERNEL)],
    ["asm", "--out", "-", str(TEXT)],
    ["grammar"],
    ["rules"],
    ["help"],
]


def outputs_that_fail(program, folder):
    """A full output: one line in a pipe; else the output and the system's reason."""
    with open("/dev/full", "wb") as full:
        for words in WRITE:
            row = Row(words, "error file", ("writ", "output", NO_SPACE), how={"stdout": full})
            wrong = each_said(row, program, folder) if words != ["help"] else in_a_pipe(row, program, folder)
            if wrong:
                return f"  {row}\n{wrong}"
    return None


def outputs_that_nobody_reads(program, folder):
    """An output that nobody reads ends the program without a word, as the signal SIGPIPE ends others."""
    read_end, closed = os.pipe()
    os.close(read_end)
    wanted = Answer(b"", b"", 128 + signal.SIGPIPE)
    try:
        for words in WRITE:
            for asked in words, [*words, VERBOSE]:
                got = run(program, asked if words != ["help"] else words, folder, env=under(), stdout=closed)
                wrong = difference(wanted, got)
                if wrong:
                    return f"  {asked}\n{wrong}"
    finally:
        os.close(closed)
    return None


def asked_by_environment(program, folder):
    """SPV_VERBOSE asks for what `--verbose` does, and `--verbose` may stand before the command."""
    absent = folder / "absent.json"
    asked = run(program, ["check", VERBOSE, KERNEL], folder, env=under(absent))
    quiet = run(program, ["check", KERNEL], folder, env=under(absent))
    if asked.err.count(b"SPV_GRAMMAR names this grammar file") != 1 or quiet.err != b"error file\n":
        return f"  {asked}\n  {quiet}"
    for value, wanted in ("1", asked), ("yes", asked), ("0", quiet), ("", quiet):
        got = run(program, ["check", KERNEL], folder, env={**under(absent), "SPV_VERBOSE": value})
        wrong = difference(wanted, got)
        if wrong:
            return f"  SPV_VERBOSE={value}\n{wrong}"
    wrong = difference(asked, run(program, [VERBOSE, "check", KERNEL], folder, env=under(absent)))
    twice = run(program, [VERBOSE, "check", VERBOSE, KERNEL], folder, env=under(absent))
    return wrong or (None if twice.err.startswith(b"error use\n") else f"  {twice}")


def same_file(program, folder):
    """OUT that is FILE: it is said that they are one file."""
    (folder / "a").write_bytes(TEXT.read_bytes())
    (folder / "link").symlink_to("a")
    for out in ("a", "link"):
        row = Row(["asm", "--out", out, "a"], "error use", ("same|itself|is FILE", HELP))
        wrong = each_said(row, program, folder)
        if wrong or (folder / "a").read_bytes() != TEXT.read_bytes():
            return wrong or "  the text was changed"
    return None


def long_words(program, folder):
    """Words of a megabyte in all are reported, in a line or a few, and no slower for that."""
    word = "x" * 100_000
    rows = [["check", f"--{word}"], [word], ["rules", word], ["check", word], ["check", *["-"] * 50_000]]
    for words in rows:
        asked = run(program, [*words[:1], VERBOSE, *words[1:]], folder, env=under())
        for got in on_terminal(program, words, folder, env=under()), asked:
            line = got.err.decode().partition("\n")[0]
            if line not in ("error use", "error file") or got.status != 2 or len(got.err) > 2_000_000:
                return f"  {words[0][:20]} {words[1:2][:1]}: {shown(got.err)}"
    return None


def checks():
    """All of these."""
    found = [
        ("words that fit nothing", all_said(USES)),
        ("files", all_said(FILES)),
        ("no words", alone),
        ("what succeeds", nothing_of_success),
        ("the option itself", refused_once),
        ("control characters", no_orders),
        ("names of entry points", hostile_entry),
        ("places of a grammar file", places_of_grammars),
        ("a grammar file that is no JSON", no_json),
        ("entry points", entry_points),
        ("a module for a text", module_for_text),
        ("an earlier version", earlier_version),
        ("the name of a file with control characters", hostile_file),
        ("several files", names_among_several),
        ("outputs that fail", outputs_that_fail),
        ("outputs that nobody reads", outputs_that_nobody_reads),
        ("asked by the environment", asked_by_environment),
        ("OUT that is FILE", same_file),
        ("long words", long_words),
    ]
    return [Check(f"errors that say why: {name}", LAYERS, run_it) for name, run_it in found]
