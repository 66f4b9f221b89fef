"""The commands and options that the man page and the completions name, beside those of the program's own help.

What each of them names is a list of commands, each with its options: those of `spv` itself stand under no name.
The completions are asked, and not read: bash and fish by their own means, zsh with stand-ins for its functions. They
ask the program for its codes, so it lies on the PATH.
"""

import os
import re
import shlex
import subprocess

from .common import SECONDS, TESTS, Check, run, shown
from .recipes import environment, run_block

TOP = TESTS.parent
PAGE = TOP / "docs/spv.1"
COMPLETIONS = TOP / "completions"
LAYERS = frozenset({"use"})
ITSELF = ""
HELP = {"-h", "--help"}
VERSION = {"-V", "--version"}
TAKES_GRAMMARS = ("check", "explain", "show", "annotate", "graph", "asm", "trace")
TAKES_FILES = (*TAKES_GRAMMARS, "grammar")
OPTION = re.compile(r"(?<![\w-])(?:--[a-z](?:[a-z0-9.-]*[a-z0-9])?|-[A-Za-z])(?![\w-])")


def asked(words, folder, script=None):
    """What a command prints, or what it says of an error, with the program that `put_on_path` put there on the PATH."""
    ended = subprocess.run(
        [str(word) for word in words],
        cwd=folder,
        env={**os.environ, "PATH": f"{folder / 'commands'}:{os.environ['PATH']}"},
        input=script,
        stdout=subprocess.PIPE,
        stderr=subprocess.STDOUT,
        timeout=SECONDS,
        check=False,
        universal_newlines=True,
    )
    return ended.stdout


def put_on_path(program, folder):
    """Has what is asked in the folder find the program by its name."""
    environment(program, folder)


# What the program names.


def listed(text):
    """The options that a help lists: the lines that begin with a dash, up to the gap before what is said of them."""
    lines = (line.strip() for line in text.splitlines())
    return set(OPTION.findall(" ".join(line.split("  ")[0] for line in lines if line.startswith("-"))))


def named_by_program(program, folder):
    """The commands with their options, by `spv help` and `spv help COMMAND`."""
    text = run(program, ["help"], folder).out.decode()
    commands = re.findall(r"^  ([a-z]+)\s", text.partition("Commands:\n")[2].partition("\n\n")[0], re.MULTILINE)
    named = {ITSELF: listed(text)}
    for command in commands:
        named[command] = listed(run(program, ["help", command], folder).out.decode())
    return named


def codes_of_program(program, folder):
    """The codes that `spv rules` lists."""
    lines = run(program, ["rules"], folder).out.decode().splitlines()
    return [line.split(":")[0] for line in lines]


# What the man page names.


def unescaped(line):
    """A line of the man page without marks of fonts, and with its signs as they are printed."""
    text = re.sub(r"\\f[BIRP]|\\c", "", line)
    return text.replace("\\-", "-").replace("\\(aq", "'")


def plain(line):
    """What a line with a macro prints."""
    words = shlex.split(unescaped(line).replace("\\", "\\\\"))
    return "".join(words[1:]) if words and re.fullmatch(r"\.[BIR]{2}", words[0]) else " ".join(words[1:])


def sections(lines, macro):
    """The sections that a macro begins: their names, and their lines."""
    found, name = {}, None
    for line in lines:
        if line.startswith(f"{macro} "):
            name = line[len(macro) + 1 :].strip('"')
            found[name] = []
        elif name is not None:
            found[name].append(line)
    return found


def help_of(command):
    """The options for help that each command has but `help` itself."""
    return set() if command == "help" else HELP


def tags(lines):
    """The options that stand as tags of paragraphs."""
    follow = (line for before, line in zip(lines, lines[1:]) if before == ".TP")
    return {option for line in follow for option in OPTION.findall(plain(line))}


def named_by_page(text):
    """The commands with their options, each with those for help, which the page names once."""
    found = sections(text.splitlines(), ".SH")
    named = {ITSELF: tags(found["OPTIONS"])}
    for command, lines in sections(found["COMMANDS"], ".SS").items():
        named[command] = tags(lines) | help_of(command)
    return named


def named_by_synopsis(text):
    """The commands with their options by the lines of the synopsis, which has neither help nor short names."""
    named = {ITSELF: HELP | VERSION}
    forms = "\n".join(sections(text.splitlines(), ".SH")["SYNOPSIS"]).split("\n.br\n")
    for form in forms:
        words = " ".join(plain(line) for line in form.splitlines()).split()
        if words[1].isalpha():
            named[words[1]] = set(OPTION.findall(" ".join(words))) | help_of(words[1])
    return named


# What the completions name.

BASH = r"""
source {path}
offered() {{
    COMP_WORDS=("$@")
    COMP_CWORD=$(($# - 1))
    _spv
    echo "${{COMPREPLY[*]}}"
}}
"""
ZSH = r"""
_arguments() {{ print -rl -- "$@"; print; state=$wanted }}
_describe() {{ print -rl -- ${{(P)argv[-1]}}; print }}
_call_program() {{ eval "${{@:2}}" }}
offered() {{ wanted=$1; words=("${{@:2}}"); source {path}; print END }}
"""


def offered_by_bash(path, lines, folder):
    """What bash offers for the last word of each line, a set of words for each."""
    calls = "".join(f"offered {' '.join(shlex.quote(word) for word in line)}\n" for line in lines)
    said = asked(["bash", "--norc", "-s"], folder, BASH.format(path=shlex.quote(str(path))) + calls)
    return [set(line.split()) for line in said.split("\n")]


def offered_by_fish(path, lines, folder):
    """The same of fish."""
    quoted = [" ".join(line).replace("'", "\\'") for line in lines]
    calls = "".join(f"complete -C '{line}'; echo END\n" for line in quoted)
    said = asked(["fish", "--no-config", "-c", f"source {shlex.quote(str(path))}\n{calls}"], folder)
    return [{line.split("\t")[0] for line in part.splitlines()} - {""} for part in said.split("END\n")]


def options_of_spec(lines):
    """The options of what zsh's _arguments is given."""
    return {match[1] for match in (re.match(r"(?:\([^)]*\))?\*?(--?[\w.-]+)", line) for line in lines) if match}


def specs_of_zsh(path, commands, folder):
    """What _arguments and _describe are given: first for the command's name, and then for each command."""
    calls = "".join(f"offered word {command}\n" for command in commands)
    script = ZSH.format(path=shlex.quote(str(path))) + "offered command spv\n" + calls
    said = asked(["zsh", "-f", "-s"], folder, script)
    return [[part.splitlines() for part in answer.split("\n\n")] for answer in said.split("END\n")]


def named_by_lines(offered, path, commands, folder):
    """The commands with their options, by a completion that is asked for words."""
    lines = [["spv", ""], ["spv", "-"], *(["spv", command, "-"] for command in commands)]
    names, own, *rest = offered(path, lines, folder)
    answers = dict(zip(commands, rest))
    return {ITSELF: own, **{name: answers.get(name, set()) for name in names}}


def named_by_bash(path, commands, folder):
    return named_by_lines(offered_by_bash, path, commands, folder)


def named_by_fish(path, commands, folder):
    return named_by_lines(offered_by_fish, path, commands, folder)


def named_by_zsh(path, commands, folder):
    """The commands with their options, by what zsh's functions are given."""
    first, *rest = specs_of_zsh(path, commands, folder)
    names = [line.split(":")[0] for line in first[1]]
    named = {ITSELF: options_of_spec(first[0]) - {"-C"}, **dict.fromkeys(names, set())}
    for command, parts in zip(commands, rest):
        if len(parts) > 1 and command in named:
            named[command] = options_of_spec(parts[1])
    return named


def codes_by(shell, path, folder):
    """The codes that a completion offers after `rules`."""
    if shell == "zsh":
        parts = specs_of_zsh(path, ["rules"], folder)[1]
        found = [line[len("1:code:(") : -1].split() for line in parts[1] if line.startswith("1:code:(")]
        return set(found[0]) if found else set()
    offered = {"bash": offered_by_bash, "fish": offered_by_fish}[shell]
    return offered(path, [["spv", "rules", ""]], folder)[0]


NAMED = {"bash": named_by_bash, "fish": named_by_fish, "zsh": named_by_zsh}
FILES = {"bash": "spv.bash", "fish": "spv.fish", "zsh": "_spv"}


# The comparison.


def missing(whose, wanted, got):
    """Lines that tell what is left out, and what is too much."""
    wrong = [f"  {whose} leaves out the command {name}" for name in sorted(set(wanted) - set(got))]
    wrong += [f"  {whose} has a command {name}, which help does not" for name in sorted(set(got) - set(wanted))]
    for name in sorted(set(wanted) & set(got)):
        for option in sorted(wanted[name] - got[name]):
            wrong.append(f"  {whose} leaves out {option} of {name or 'spv'}")
        for option in sorted(got[name] - wanted[name]):
            wrong.append(f"  {whose} has {option} of {name or 'spv'}, which help does not")
    return wrong


def told(lines):
    """None, or what is wrong."""
    return "\n".join(lines) or None


def page_differs(text, wanted):
    """What is wrong with the man page."""
    wrong = missing("the man page", wanted, named_by_page(text))
    return wrong + missing("the synopsis", wanted, named_by_synopsis(text))


def completion_differs(shell, path, wanted, codes, folder):
    """What is wrong with a completion."""
    commands = [name for name in wanted if name != ITSELF]
    wrong = missing(FILES[shell], wanted, NAMED[shell](path, commands, folder))
    found = codes_by(shell, path, folder)
    wrong += [f"  {FILES[shell]}: the code {code} on one side alone" for code in sorted(set(codes) ^ found)]
    return wrong


def enough(wanted):
    """Whether the program's help names what it must, so that a comparison with nothing is none."""
    return {*TAKES_FILES, "rules"} <= set(wanted) and "--out" in wanted["asm"] and "--as-1.6" in wanted["check"]


def page_as_help(program, folder):
    """The man page names the commands and options of help, and no others."""
    wanted = named_by_program(program, folder)
    if not enough(wanted):
        return f"  help names {wanted}"
    return told(page_differs(PAGE.read_text(encoding="utf-8"), wanted))


def completion_as_help(shell):
    """The check of a shell's completion."""

    def check(program, folder):
        path = COMPLETIONS / FILES[shell]
        put_on_path(program, folder)
        said = asked([shell, "-n", path], folder)
        if said:
            return f"  {shell} -n: {said}"
        wanted, codes = named_by_program(program, folder), codes_of_program(program, folder)
        if not enough(wanted):
            return f"  help names {wanted}"
        return told(completion_differs(shell, path, wanted, codes, folder))

    return check


def completes_files(shell):
    """The check that a shell's completion offers files for FILE, OUT and G, and none for numbers."""

    def check(program, folder):
        path = COMPLETIONS / FILES[shell]
        put_on_path(program, folder)
        (folder / "module.spv").touch()
        with_files = [["spv", command, "mod"] for command in TAKES_FILES]
        with_files += [["spv", command, "--grammar", "mod"] for command in TAKES_GRAMMARS]
        with_files += [["spv", "asm", "--out", "mod"]]
        without = [["spv", "trace", option, "mod"] for option in ("--choices", "--function", "--limit")]
        without += [["spv", "annotate", option, "mod"] for option in ("--color", "--function")]
        without += [["spv", "graph", "--function", "mod"], ["spv", "mod"]]
        without += [["spv", "rules", "mod"], ["spv", "help", "mod"]]
        lines = with_files + without
        offered = {"bash": offered_by_bash, "fish": offered_by_fish}[shell](path, lines, folder)
        wanted = [{"module.spv"}] * len(with_files) + [set()] * len(without)
        return told([f"  {line}: {got}" for line, want, got in zip(lines, wanted, offered) if want != got])

    return check


def zsh_completes_files(_program, folder):
    """The same of what zsh's _arguments is given."""
    wrong = []
    for command, parts in zip(TAKES_FILES, specs_of_zsh(COMPLETIONS / "_spv", TAKES_FILES, folder)[1:]):
        of_files = [line for line in parts[1] if line.endswith(":_files")]
        names = {re.match(r"[^:=]*", line)[0] for line in of_files}
        place = "*" if command in ("check", "explain") else "1"
        wanted = {place} | ({"--grammar"} if command in TAKES_GRAMMARS else set())
        wanted |= {"--out"} if command == "asm" else set()
        if names != wanted:
            wrong.append(f"  {command}: files for {names}, and not {wanted}")
    return told(wrong)


def shown_without_warnings(_program, folder):
    """The page's source has nothing that groff warns of."""
    said = asked(["groff", "-ww", "-man", "-Tutf8", "-z", PAGE], folder)
    return f"  {said}" if said else None


# What is left out is found: a text to be taken out of each file.
LEFT_OUT = {
    "spv.1": (r"\.TP\n\.B \\-\\-big\n", r"\.SS trace\n", r"\n\.RB \[ \\-\\-choices"),
    "spv.bash": (r"--big ", r" trace(?= rules)", r" rules(?= 2>)"),
    "spv.fish": (r"complete .* -l big .*\n", r"complete .* -a trace .*\n", r" rules(?= 2>)"),
    "_spv": (r" *'--big\[.*\n", r" *'trace:.*\n", r" rules(?= 2>)"),
}


def without(path, pattern, folder):
    """A copy of the file without the text that fits."""
    text, count = re.subn(pattern, "", path.read_text(encoding="utf-8"))
    copy = folder / path.name
    copy.write_text(text, encoding="utf-8")
    return copy if count else None


def finds_what_is_left_out(shell):
    """The check that the comparison tells more of a copy from which something is taken out than of the file."""

    def check(program, folder):
        wanted, codes = named_by_program(program, folder), codes_of_program(program, folder)
        path = COMPLETIONS / FILES[shell] if shell else PAGE
        put_on_path(program, folder)

        def wrong_of(file):
            if shell:
                return set(completion_differs(shell, file, wanted, codes, folder))
            return set(page_differs(file.read_text(encoding="utf-8"), wanted))

        before = wrong_of(path)
        for pattern in LEFT_OUT[path.name]:
            copy = without(path, pattern, folder)
            if copy is None:
                return f"  {path.name} has no {pattern}"
            if wrong_of(copy) <= before:
                return f"  {path.name} without {pattern} is not found out"
        return None

    return check


def examples_run(program, folder):
    """The lines of the page's examples run as they stand, one after another, on a module with a branch."""
    found = sections(PAGE.read_text(encoding="utf-8").splitlines(), ".SH")["EXAMPLES"]
    blocks = re.findall(r"^\.nf\n(.*?)^\.fi$", "\n".join(found), re.MULTILINE | re.DOTALL)
    script = "".join(unescaped(block) for block in blocks)
    kernel = (TESTS / "modules/call-of-a-later-function.spv").read_bytes()
    place = folder / "empty"
    (place / "modules").mkdir(parents=True)
    (place / "kernel.spv").write_bytes(kernel)
    (place / "modules/a.spv").write_bytes(kernel)
    (place / "modules/b.spv").write_bytes(b"123")
    got, status = run_block(script, place, environment(program, folder))
    again = place / "again.spv"
    first = b"modules/b.spv: fault W2\nvalid\nvalid\nvalid\nA1: "
    fine = status == 0 and got.startswith(first) and got.endswith(b"end finished\n")
    are_made = again.is_file() and again.read_bytes() == kernel and (place / "spirv.json").is_file()
    if fine and len(blocks) >= 6 and are_made:
        return None
    return f"  {script}  got: {shown(got)}, exit {status}"


def version_as_program(program, folder):
    """The man page's first line has the version that the program gives."""
    said = run(program, ["--version"], folder).out.decode().splitlines()[:1]
    first = shlex.split(PAGE.read_text(encoding="utf-8").splitlines()[0])
    return None if said == [first[4]] else f"  the man page is of {first[4]}, the program {said}"


def checks():
    """The man page, and the three completions. They need the program's help."""
    files = {"bash": completes_files("bash"), "fish": completes_files("fish"), "zsh": zsh_completes_files}
    found = [
        Check("manual: as help", LAYERS, page_as_help),
        Check("manual: what is left out is found", LAYERS, finds_what_is_left_out(None)),
        Check("manual: of the program's version", LAYERS, version_as_program),
        Check("manual: its examples", frozenset({"trace", "many files"}), examples_run),
        Check("manual: no warnings", frozenset(), shown_without_warnings, frozenset({"groff"})),
    ]
    for shell in sorted(FILES):
        tools = frozenset({shell})
        found += [
            Check(f"completion in {shell}: as help", LAYERS, completion_as_help(shell), tools),
            Check(f"completion in {shell}: files", frozenset(), files[shell], tools),
            Check(f"completion in {shell}: what is left out is found", LAYERS, finds_what_is_left_out(shell), tools),
        ]
    return found
