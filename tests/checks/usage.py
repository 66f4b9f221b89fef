"""The program as people use it: help, the version, standard streams as files, and the grammar file by SPV_GRAMMAR."""

import os

from .common import TESTS, Answer, Check, difference, run

LAYERS = frozenset({"trace", "use"})
GRAMMAR = TESTS / "profile.json"
MODULES = TESTS / "modules"
KERNEL = MODULES / "smallest-kernel.spv"
TEXT = MODULES / "smallest-kernel.spvasm"
BROKEN = MODULES / "value-missing-on-one-branch.spv"
COMMANDS = ("check", "explain", "show", "annotate", "graph", "asm", "trace", "rules", "grammar")
VARIABLE = "SPV_GRAMMAR"
# A path that is no text.
NO_TEXT = os.fsdecode(b"gr\xe4mmar.json")
VALID = Answer(b"valid\n", b"", 0)
BAD_USE = Answer(b"", b"error use\n", 2)
NO_FILE = Answer(b"", b"error file\n", 2)
RUN_OF_KERNEL = b"0 7\n0 8\nend finished\n"


def under(grammar=None):
    """The environment with the grammar file in SPV_GRAMMAR, or without the variable."""
    rest = {name: text for name, text in os.environ.items() if name != VARIABLE}
    return rest if grammar is None else {**rest, VARIABLE: str(grammar)}


def answers(rows, program, folder, **how):
    """None if the program gives each row's answer to its words, else the first that it does not."""
    for words, wanted in rows:
        wrong = difference(wanted, run(program, words, folder, **how))
        if wrong:
            return f"  {' '.join(map(str, words))}\n{wrong}"
    return None


def of_each_command(file):
    """For each command that reads FILE: its words without a grammar file, and its answer for the smallest kernel."""
    return [
        (["check", file], VALID),
        (["explain", file], VALID),
        (["show", file], Answer(TEXT.read_bytes(), b"", 0)),
        (["trace", "--function", "3", "--limit", "9", file], Answer(RUN_OF_KERNEL, b"", 0)),
    ]


# Standard streams.


def reads_standard_input(program, folder):
    """`-` is the standard input, of each command, and after `--` too."""
    for words, wanted in [*of_each_command("-"), (["check", "--", "-"], VALID)]:
        with KERNEL.open("rb") as file:
            wrong = answers([(words, wanted)], program, folder, stdin=file, env=under(GRAMMAR))
        if wrong:
            return wrong
    return None


def assembles_streams(program, folder):
    """`asm` from the standard input to the standard output, in both orders of bytes; and nothing else is made."""
    content = KERNEL.read_bytes()
    turned = b"".join(content[at : at + 4][::-1] for at in range(0, len(content), 4))
    for words, wanted in ([], content), (["--big"], turned):
        with TEXT.open("rb") as file:
            got = run(program, ["asm", *words, "--out", "-", "-"], folder, stdin=file, env=under(GRAMMAR))
        wrong = difference(Answer(wanted, b"", 0), got)
        if wrong:
            return wrong
    return None if not list(folder.iterdir()) else "  a file was made"


def tells_fault_beside_output(program, folder):
    """Where OUT is the standard output, the line of a fault goes to the standard error; else to the standard output."""
    text = folder / "text"
    text.write_text("; SPIR-V\n", encoding="utf-8")
    line = b"fault S1 line 2\n"
    rows = [(["asm", "--out", "-", text], Answer(b"", line, 1)), (["asm", "--out", "made", text], Answer(line, b"", 1))]
    return answers(rows, program, folder, env=under(GRAMMAR))


def dash_in_a_folder(program, folder):
    """`./-` is a file of that name, as FILE and as OUT."""
    rows = [
        (["asm", "--out", "./-", TEXT], Answer(b"", b"", 0)),
        (["check", "./-"], VALID),
    ]
    wrong = answers(rows, program, folder, env=under(GRAMMAR))
    made = folder / "-"
    return wrong or (None if made.is_file() and made.read_bytes() == KERNEL.read_bytes() else "  ./- was not made")


def output_takes_nothing(program, folder):
    """A full output is `error file`, of the module that `asm` makes, of help and of the version too."""
    lines = (["asm", "--out", "-", TEXT], ["check", KERNEL], ["check", "--json", KERNEL], ["annotate", KERNEL])
    lines += (["annotate", "--html", KERNEL], ["graph", KERNEL], ["rules", "--json"], ["help"], ["help", "check"])
    lines += (["--version"], ["rules"])
    for words in lines:
        with open("/dev/full", "wb") as full:
            wrong = answers([(words, NO_FILE)], program, folder, stdout=full, env=under(GRAMMAR))
        if wrong:
            return wrong
    return answers([(["asm", "--out", "/dev/full", TEXT], NO_FILE)], program, folder, env=under(GRAMMAR))


def streams_that_are_none(program, folder):
    """No input is a module that is too short; a folder as the standard input, and none at all, cannot be read."""
    words = ["check", "-"]
    too_short = Answer(b"fault W2\n", b"", 1)
    wrong = answers([(words, too_short)], program, folder, env=under(GRAMMAR))
    number = os.open(folder, os.O_RDONLY)
    try:
        wrong = wrong or answers([(words, NO_FILE)], program, folder, stdin=number, env=under(GRAMMAR))
    finally:
        os.close(number)
    closed = run(program, words, folder, stdin=None, preexec_fn=lambda: os.close(0), env=under(GRAMMAR))
    return wrong or (None if closed in (NO_FILE, too_short) else f"  without a standard input: {closed}")


# The grammar file.


def grammar_by_environment(program, folder):
    """SPV_GRAMMAR alone, of each command."""
    rows = [*of_each_command(KERNEL), (["asm", "--out", "made", TEXT], Answer(b"", b"", 0))]
    return answers(rows, program, folder, env=under(GRAMMAR))


def grammar_by_option_first(program, folder):
    """`--grammar` comes before SPV_GRAMMAR, whichever of them is good."""
    refused = folder / "refused.json"
    refused.write_bytes(b"[1")
    good, bad = ["check", "--grammar", GRAMMAR, KERNEL], ["check", "--grammar", refused, KERNEL]
    no_tree = Answer(b"", b"error J1\n", 2)
    wrong = answers([(good, VALID)], program, folder, env=under(refused))
    wrong = wrong or answers([(bad, no_tree)], program, folder, env=under(GRAMMAR))
    wrong = wrong or answers([(["check", KERNEL], no_tree)], program, folder, env=under(refused))
    for absent in (folder / "absent", "", NO_TEXT):
        wrong = wrong or answers([(good, VALID)], program, folder, env=under(absent))
        wrong = wrong or answers([(["check", KERNEL], NO_FILE)], program, folder, env=under(absent))
    return wrong


def no_grammar(program, folder):
    """Without both the built-in grammar counts. `rules` needs none."""
    rows = [*of_each_command(KERNEL), (["asm", "--out", "made", TEXT], Answer(b"", b"", 0))]
    wrong = answers(rows, program, folder, env=under())
    if wrong or (folder / "made").read_bytes() != KERNEL.read_bytes():
        return wrong or "  OUT is another module"
    got = run(program, ["rules"], folder, env=under())
    return None if got.status == 0 and got.out and not got.err else f"  rules: {got}"


# Help and the version.


def tells_version(program, folder):
    """Two lines: the program's, and that of SPIR-V and the toolchain."""
    got = run(program, ["--version"], folder, env=under())
    lines = got.out.decode().splitlines()
    fine = len(lines) == 2 and lines[0] == "spv 1.2.0" and "SPIR-V 1.6" in lines[1] and "rattle-kit-" in lines[1]
    return None if fine and (got.err, got.status) == (b"", 0) else f"  {got}"


def tells_help(program, folder):
    """`help` names all commands; `help COMMAND` says what `COMMAND --help` does, exit statuses and an example in it."""
    for words in ["help"], ["--help"], ["-h"]:
        got = run(program, words, folder, env=under())
        text = got.out.decode()
        if (got.err, got.status) != (b"", 0) or any(f"  {command} " not in text for command in COMMANDS):
            return f"  {words}: {got}"
    for command in COMMANDS:
        got = run(program, ["help", command], folder, env=under())
        text = got.out.decode()
        parts = (f"Usage: spv {command} ", "xit status", f"\n  spv {command} ")
        if (got.err, got.status) != (b"", 0) or not all(part in text for part in parts):
            return f"  help {command}: {got}"
        rows = [([command, flag], got) for flag in ("--help", "-h")]
        wrong = answers(rows, program, folder, env=under())
        if wrong:
            return wrong
    return None


def examples_of_help(program, folder):
    """The example that each help shows is a command line that fits a command, although its files are absent."""
    for words in [["help"], *(["help", command] for command in COMMANDS)]:
        text = run(program, words, folder, env=under()).out.decode()
        lines = [line for line in text.partition("Example")[2].splitlines() if line.startswith("  spv ")]
        lines = [line.partition(" > ")[0].partition(" | ")[0].split() for line in lines]
        if not lines or any(run(program, line[1:], folder, env=under(GRAMMAR)).err == BAD_USE.err for line in lines):
            return f"  {words}: {lines}"
    return None


def words_that_fit_nothing(program, folder):
    """Words that are no command, and commands that lack a word or have one too many."""
    lines = [
        [],
        ["nothing"],
        ["help", "nothing"],
        ["help", "check", "show"],
        ["nothing", KERNEL],
        ["check"],
        ["check", "--big", KERNEL],
        ["show", KERNEL, KERNEL],
        ["asm", TEXT],
        ["asm", "--out", "made", TEXT, TEXT],
        ["trace", "--function", "3", "--limit", "9", KERNEL, KERNEL],
        ["check", "-x.spv"],
        ["rules", "A1", "A2"],
        ["rules", "A9"],
        ["\udcff", KERNEL],
        ["rules", "\udcff"],
    ]
    return answers([(words, BAD_USE) for words in lines], program, folder, env=under(GRAMMAR))


def leading_dash(program, folder):
    """After `--` a word with a leading dash is a file."""
    (folder / "-x.spv").write_bytes(KERNEL.read_bytes())
    rows = [
        (["check", "--", "-x.spv"], VALID),
        (["check", "--grammar", GRAMMAR, "--", "-x.spv"], VALID),
        (["show", "--", "-x.spv"], Answer(TEXT.read_bytes(), b"", 0)),
        (["check", "--", "--help"], NO_FILE),
    ]
    return answers(rows, program, folder, env=under(GRAMMAR))


def checks():
    """All of these."""
    found = [
        ("standard input as FILE", reads_standard_input),
        ("asm from and to standard streams", assembles_streams),
        ("a fault beside the output", tells_fault_beside_output),
        ("./- as a file", dash_in_a_folder),
        ("an output that takes nothing", output_takes_nothing),
        ("an input that is none", streams_that_are_none),
        ("SPV_GRAMMAR", grammar_by_environment),
        ("--grammar before SPV_GRAMMAR", grammar_by_option_first),
        ("no grammar file", no_grammar),
        ("the version", tells_version),
        ("help", tells_help),
        ("the examples of help", examples_of_help),
        ("words that fit nothing", words_that_fit_nothing),
        ("a leading dash", leading_dash),
    ]
    return [Check(f"use: {name}", LAYERS, run_it) for name, run_it in found]
