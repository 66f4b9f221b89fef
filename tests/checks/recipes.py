"""The recipes of docs/USING.md and the command lines of README.md, run as they stand, with what they print.

A section of docs/USING.md is a recipe, run in a folder of its own after the one that makes the modules of the others;
and all of them are run in one folder, one after the other. A block of `sh` is run by a shell, and the block of `text`
that follows it is what it prints; any other block is a file, whose name is the last word in the sign ` of the line
above it. In README.md what is run stands after `$ `, and what it prints below.
"""

import os
import re
from dataclasses import dataclass

from .common import TESTS, Check, Unusable, joined, shown
from .library import Wrong, make

PAGE = TESTS.parent / "docs/USING.md"
README = TESTS.parent / "README.md"
SECURITY = TESTS.parent / "SECURITY.md"
FENCE = "```"
# The section that makes the modules which the others use.
MAKES_MODULES = "Two modules"
# The tools that a recipe needs, by a word that its blocks have.
TOOLS = {
    "cc ": {"cc"},
    "clang ": {"llvm-spirv"},
    "cmake ": {"cmake"},
    "dot ": {"dot"},
    "jq ": {"jq"},
    "pkg-config ": {"library", "make", "pkg-config"},
}


@dataclass(frozen=True)
class Block:
    """A block of a page: its language, the line above it, and its lines."""

    language: str
    above: str
    text: str


def sections_of(text):
    """The sections of a page after its head: the name and the text of each."""
    for part in re.split(r"^## ", text, flags=re.MULTILINE)[1:]:
        name, _, rest = part.partition("\n")
        yield name, rest


def blocks_of(text):
    """The blocks of a section in order."""
    above, language, kept = "", None, []
    for line in text.splitlines():
        if not line.startswith(FENCE):
            kept.append(line)
            above = line if line and language is None else above
        elif language is None:
            language, kept = line[len(FENCE) :], []
        else:
            yield Block(language, above, "".join(f"{it}\n" for it in kept))
            language = None


def environment(program, folder):
    """The environment of a recipe: the program on the PATH, by its name, and no grammar file."""
    commands = folder / "commands"
    commands.mkdir()
    (commands / "spv").symlink_to(program)
    rest = {name: text for name, text in os.environ.items() if name != "SPV_GRAMMAR"}
    return {**rest, "PATH": f"{commands}:{os.environ['PATH']}", "LC_ALL": "C"}


def with_library(folder):
    """The variables by which an installation of the library into a folder is found."""
    make("install", f"PREFIX={folder}")
    return {"PKG_CONFIG_PATH": str(folder / "lib/pkgconfig"), "LD_LIBRARY_PATH": str(folder / "lib")}


def run_block(text, folder, variables):
    """Runs the lines of a block in a shell: what they print, and how they end."""
    return joined(["sh", "-eu", "-c", text], folder, env=variables)


def script_of(blocks):
    """All that the blocks have a shell run."""
    return "".join(block.text for block in blocks if block.language == "sh")


def tools_of(blocks):
    """The tools that the blocks need."""
    script = script_of(blocks)
    return frozenset().union(*(tools for word, tools in TOOLS.items() if word in script))


def run_blocks(blocks, folder, variables):
    """Does what the blocks of a section say: None, or what went wrong."""
    follow = [*blocks[1:], Block("", "", "")]
    for block, following in zip(blocks, follow):
        if block.language == "sh":
            wanted = following.text.encode() if following.language == "text" else b""
            got, status = run_block(block.text, folder, variables)
            if (wanted, 0) != (got, status):
                return f"  {block.text}  wanted: {shown(wanted)}\n  got:    {shown(got)}, exit {status}"
        elif block.language != "text":
            name = re.findall(r"`([^`]*)`", block.above)[-1]
            (folder / name).write_text(block.text, encoding="utf-8")
    return None


def recipe(*parts):
    """The check of recipes, one after the other in one folder."""

    def check(program, folder):
        variables = environment(program, folder)
        if "library" in tools_of([block for blocks in parts for block in blocks]):
            try:
                variables.update(with_library(folder / "prefix"))
            except Wrong as wrong:
                return str(wrong)
        place = folder / "empty"
        place.mkdir()
        return next(filter(None, (run_blocks(blocks, place, variables) for blocks in parts)), None)

    return check


def recipes():
    """A check for each section of the page, and one for all of them."""
    found = {name: list(blocks_of(text)) for name, text in sections_of(PAGE.read_text(encoding="utf-8"))}
    if MAKES_MODULES not in found or not all(found.values()):
        raise Unusable(f"docs/USING.md has no section {MAKES_MODULES}, or one without a block")
    layers = frozenset({"use", "many files", "library"})
    modules = found[MAKES_MODULES]
    for name, blocks in found.items():
        parts = [blocks] if blocks is modules else [modules, blocks]
        yield Check(f"recipe: {name}", layers, recipe(*parts), tools_of(blocks))
    whole = [block for blocks in found.values() for block in blocks]
    yield Check("recipes: one after the other", layers, recipe(*found.values()), tools_of(whole))


# README.md


def shown_lines(text):
    """What README shows: each command line, and what it prints (None where only the line stands there)."""
    for block in re.findall(r"(?:^    .*\n)+", text, re.MULTILINE):
        lines = [line[4:] for line in block.splitlines()]
        if not lines[0].startswith("$ "):
            yield from ((line, None) for line in lines)
            continue
        for part in "\n".join(lines)[2:].split("\n$ "):
            line, _, printed = part.partition("\n")
            yield line, f"{printed}\n".encode() if printed else b""


def laid_out(program, folder):
    """A folder that is as the repository's once the program is built: `./build` there has nothing to do."""
    built = folder / "crates/spv/out"
    built.mkdir(parents=True)
    (built / "spv").symlink_to(program)
    (folder / "tests").symlink_to(TESTS)
    build = folder / "build"
    build.write_text("#!/bin/sh\n", encoding="utf-8")
    build.chmod(0o755)


def without_installing(text):
    """README without its part on installing, whose command lines are run with the library's checks."""
    before, title, rest = text.partition("\n## Install\n")
    return before + rest[rest.find("\n## ") :] if title else text


def readme(program, folder):
    """Each command line of README prints what stands below it, and ends with 0, or with 1 where that is a fault."""
    laid_out(program, folder)
    variables, count = environment(program, folder), 0
    for line, printed in shown_lines(without_installing(README.read_text(encoding="utf-8"))):
        if line == ".ci/run":
            continue
        got, status = run_block(line, folder, variables)
        count += 1
        due = int((printed or b"").startswith(b"fault ") or b'"verdict":"fault"' in (printed or b""))
        if status != due or printed is not None and printed != got:
            return f"  {line}\n  wanted: {shown(printed or b'')}, exit {due}\n  got:    {shown(got)}, exit {status}"
    return None if count >= 6 else f"  README has {count} command lines"


def untrusted_looked_at(_program, _folder):
    """Each check in a recipe of SECURITY.md looks at extended instructions too."""
    text = SECURITY.read_text(encoding="utf-8")
    lines = [line for _, part in sections_of(text) for it in blocks_of(part) for line in it.text.splitlines()]
    found = [line for line in lines if re.search(r"/spv check\b", line)]
    wrong = [line for line in found if "spv check --opencl " not in line]
    return f"  {wrong}, of {len(found)}" if wrong or len(found) < 2 else None


def checks():
    """The recipes, README and SECURITY.md. They need all layers of the program."""
    found = [*recipes(), Check("README: its command lines", frozenset({"trace"}), readme)]
    return [*found, Check("SECURITY: untrusted modules", frozenset(), untrusted_looked_at)]
