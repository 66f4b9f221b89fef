"""What `explain` writes, judged line by line by tests/reading: of changed modules (tests/judge), and of those of the
table of types, whose conditions must all be told."""

import json
import re
import subprocess
import sys

from reading.conditions import OWN_WORDS
from reading.decode import Grammar
from reading.judge import judged
from reading.object_conditions import WORDS
from reading.profiles import Profile
from shapes.changes import with_extended

from . import typed, typed_opencl
from .cases import OPENCL, written
from .common import LAYERS, TESTS, Check
from .ruled import PAGE, sentences

JUDGE = TESTS / "judge"
PROFILE, GRAMMAR = TESTS / "profile.json", TESTS / OPENCL
MAY_LACK = ("fault Y2", "fault Y4", "fault Y5")
COUNT, SEED = 600, 20_261_126
SECONDS = 600


def answers(program, grammar, paths, *flags):
    """The lines that the program writes of each file, with these flags, and what it writes on standard error."""
    given = [str(program), "explain", *flags, "--with-filename", "--grammar", str(grammar), *map(str, paths)]
    ended = subprocess.run(given, stdout=subprocess.PIPE, stderr=subprocess.PIPE, timeout=SECONDS, check=False)
    found, begins = {path: [] for path in paths}, {f"{path}: ": path for path in paths}
    now = []
    for line in ended.stdout.decode(errors="replace").split("\n")[:-1]:
        begin = line[: line.find(": ") + 2]
        if begin in begins:
            now, line = found[begins[begin]], line[len(begin) :]
        now.append(line)
    return found, ended.stderr.decode(errors="replace")


def changed(program, folder):
    """None if nothing is untrue of some changed modules."""
    words = [sys.executable, str(JUDGE), "--program", str(program), "--count", str(COUNT), "--seed", str(SEED)]
    words += ["--keep", str(folder)]
    ended = subprocess.run(words, stdout=subprocess.PIPE, stderr=subprocess.STDOUT, timeout=SECONDS, check=False)
    return None if ended.returncode == 0 else f"  {ended.stdout.decode(errors='replace')}"


def of_types(folder):
    """The modules of tests/modules, and those that break the table of types, written into a folder: each with its
    name."""
    found = {path: path.name for path in (TESTS / "modules").glob("*.spv")}
    for rule, is_global, rows in typed.ROWS:
        for codes, _, breaks in rows:
            for code in typed.opcodes_in(codes):
                for case in breaks:
                    path = folder / f"{len(found)}.spv"
                    path.write_bytes(typed.module(rule, code, case, is_global)[0])
                    found[path] = f"{rule} {code} {case}"
    return found


def of_types_of_opencl(folder):
    """The modules that break the rows of `--opencl`, written into a folder: each with its name."""
    breaks = {name: content for name, content in typed_opencl.written().items() if " breaks: " in name}
    found = {folder / f"{number}.spv": name for number, name in enumerate(breaks)}
    for path, name in found.items():
        path.write_bytes(breaks[name])
    return found


def unlike(program, file, names, words, profile=Profile.OWN):
    """What is untrue of what explains modules with these names, and which of some conditions is reported of none."""
    grammar = Grammar(json.loads(file.read_text(encoding="utf-8")))
    sentence_of = dict(sentences(PAGE.read_text(encoding="utf-8")))
    told, wrong = set(), []
    found, errors = answers(program, file, list(names), *profile.flags)
    for path, lines in found.items():
        _, _, untrue = judged(grammar, sentence_of, path.read_bytes(), lines, profile=profile)
        wrong += [f"  {names[path]}: {it}" for it in untrue]
        told |= {line[len("condition: ") :] for line in lines if line.startswith("condition: ")}
    wrong += [f"  {errors}"] if errors else []
    return wrong + [f"  told of no module: {it}" for it in words if it not in told]


def conditions(program, folder):
    """None if each condition of the table of types is reported of some module that breaks it, and nothing untrue."""
    return "\n".join(unlike(program, PROFILE, of_types(folder), OWN_WORDS)) or None


def conditions_of_opencl(program, folder):
    """The same of the conditions that `--opencl` adds."""
    names = of_types_of_opencl(folder)
    return "\n".join(unlike(program, GRAMMAR, names, WORDS, Profile.OPENCL)) or None


def spoiled(lines):
    """Lines of which one has another number, stands twice, or is left out, but for those that may be: each with that
    one."""
    is_of_types = lines[0].startswith(MAY_LACK)
    for at, line in enumerate(lines[1:], 1):
        other = re.sub(r"\d+(?=\D*$)", lambda found: str(int(found[0]) + 1), line)
        if other != line and not line.startswith("rule: "):
            yield line, [*lines[:at], other, *lines[at + 1 :]]
        if not line.startswith("type: "):
            yield line, lines[: at + 1] + lines[at:]
        if not (is_of_types and line.startswith(("type: ", "wanted: ", "found: "))):
            yield line, lines[:at] + lines[at + 1 :]


def calling(folder):
    """The modules of cases that have an extended instruction, written into a folder."""
    found = written()
    paths = {folder / f"{name}.spv": found[name] for name in with_extended(found)}
    for path, content in paths.items():
        path.write_bytes(content)
    return list(paths)


def seen(program, folder):
    """None if the judge sees that a line of an answer has another number, is left out or stands twice."""
    grammar = Grammar(json.loads(PROFILE.read_text(encoding="utf-8")))
    sentence_of = dict(sentences(PAGE.read_text(encoding="utf-8")))
    wrong = []
    own = sorted((TESTS / "modules").glob("*.spv"))[::8]
    for profile, paths in ((Profile.OWN, own), (Profile.EXTENDED, calling(folder))):
        for path, lines in answers(program, PROFILE, paths, *profile.flags)[0].items():
            for line, other in spoiled(lines):
                if not judged(grammar, sentence_of, path.read_bytes(), other, False, profile)[2]:
                    wrong.append(f"  {path.name}: {line}")
    return "\n".join(wrong) or None


def checks():
    """Changed modules, those of the table of types, and the judge itself."""
    layers = frozenset(LAYERS)
    return [
        Check("lines of explain judged", layers, changed),
        Check("lines of explain judged: conditions", layers, conditions),
        Check("lines of explain judged: conditions, opencl", layers | {"opencl"}, conditions_of_opencl),
        Check("lines of explain judged: what is spoiled", layers, seen),
    ]
