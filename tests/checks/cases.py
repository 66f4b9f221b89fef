"""The cases of tests/cases: a run of the program each, with its whole answer."""

import json
import re
import shlex
from collections import Counter
from dataclasses import dataclass, field
from functools import lru_cache
from typing import List, Optional, Tuple

from reading.assemble import Unread, assembled
from reading.verdict import grammar_in

from .common import TESTS, Answer, Check, Unusable, difference, layers_of, layers_that_stand, run, shown

COLUMN = 7
OPENCL = "opencl.json"
ONCE = ("case", "layer", "run", "G", "made", "exit", "why")
MANY = ("old", "new", "F", "text", "out", "quoted", "err")
PIECE = re.compile(r"(hex )?(\S+?)( first (\d+) bytes)?( times (\d+))?")


@dataclass
class Case:
    """A case as its file has it. README.md says what each line means."""

    place: str
    lines: List[Tuple[str, str]] = field(default_factory=list)

    def one(self, key) -> Optional[str]:
        """The text of the line with this key, if there is one."""
        texts = self.all(key)
        return texts[0] if texts else None

    def all(self, key) -> List[str]:
        """The texts of the lines with this key, in order."""
        return [text for name, text in self.lines if name == key]

    def tell(self, what):
        """The error of an ill-formed case."""
        return Unusable(f"{self.place}: {what}")

    def check_form(self):
        """Raises Unusable where a line is missing, or stands twice."""
        count = Counter(key for key, _ in self.lines)
        for key in ("case", "layer", "run", "exit"):
            if count[key] != 1:
                raise self.tell(f"has {count[key]} lines '{key}'")
        for key in ONCE:
            if count[key] > 1:
                raise self.tell(f"has {count[key]} lines '{key}'")
        if count["F"] and count["text"]:
            raise self.tell("has lines 'F' and lines 'text'")
        if count["old"] != count["new"]:
            raise self.tell("has not as many lines 'old' as 'new'")


def read_cases(path):
    """The cases of one file."""
    found, case = [], None
    for number, line in enumerate(path.read_text(encoding="utf-8").split("\n"), 1):
        if line.startswith("#"):
            continue
        if not line:
            case = None
            continue
        place = f"{path.name}:{number}"
        key, text = line[:COLUMN].rstrip(), line[COLUMN:]
        if key not in ONCE + MANY or len(line) > COLUMN and line[COLUMN - 1] != " ":
            raise Unusable(f"{place}: no line of a case")
        if case is None:
            case = Case(place)
            found.append(case)
        case.lines.append((key, text))
    for each in found:
        each.check_form()
    return found


def piece(case, text):
    """The bytes that a line 'F' tells, and how many times they stand there."""
    form = PIECE.fullmatch(text)
    if form is None:
        raise case.tell(f"no input: {text}")
    is_hex, name, _, first, _, times = form.groups()
    content = bytes.fromhex(name) if is_hex else (TESTS / name).read_bytes()
    if first is not None:
        content = content[: int(first)]
    return content, int(times or 1)


@lru_cache(maxsize=None)
def grammar_read(name):
    """The grammar of a file of this folder, as the second reading has it."""
    return grammar_in(TESTS / name)


def grammar_of_text(case):
    """The grammar by which the text of a case's module is read: where the case has the grammar file of `--opencl` it is
    that one."""
    return grammar_read(OPENCL if case.one("G") == OPENCL else "profile.json")


def pieces(case):
    """The parts of the file that is read, each with how many times it stands there; none where the case has no such
    file. The lines 'text' are a module's, which the second reading makes."""
    if case.all("text"):
        try:
            return [(assembled(grammar_of_text(case), case.all("text")), 1)]
        except (Unread, KeyError, ValueError) as error:
            raise case.tell(f"no text of a module: {error}") from error
    return [piece(case, text) for text in case.all("F")]


def grammar(case):
    """The bytes of the case's grammar file, or None if it needs none."""
    text = case.one("G")
    if text is None:
        return None
    if text[0] in "{[":
        return text.encode()
    content = (TESTS / text).read_bytes()
    if not case.all("old"):
        return content
    changed = " ".join(content.decode().split())
    for old, new in zip(case.all("old"), case.all("new")):
        if changed.count(old) != 1:
            raise case.tell(f"stands {changed.count(old)} times in the grammar: {old}")
        changed = changed.replace(old, new)
    json.loads(changed)
    return changed.encode()


def output(case):
    """The bytes that the case wants on standard output."""
    lines = []
    for key, text in case.lines:
        if key == "out":
            lines.append(text)
        elif key == "quoted":
            lines.append(json.loads(text))
    return "".join(line + "\n" for line in lines).encode()


def made(case):
    """The bytes that the case wants in OUT, or None if it says nothing of it."""
    text = case.one("made")
    if text is None:
        return None
    return b"" if text == "nothing" else (TESTS / text).read_bytes()


def difference_made(wanted, path):
    """None if OUT holds what is wanted, else what is wrong."""
    if not path.exists():
        return "  OUT was not made"
    got = path.read_bytes()
    return None if wanted == got else f"  wanted: {shown(wanted)}\n  made:   {shown(got)}"


def laid_out(case, folder):
    """Puts the case's files into the folder, and answers the words to run the program with."""
    parts = pieces(case)
    if parts:
        (folder / "F").write_bytes(b"".join(content * times for content, times in parts))
    content = grammar(case)
    if content is not None:
        (folder / "G").write_bytes(content)
    place = {name: str(folder / name) for name in "GFO"}
    return [place.get(word, word) for word in shlex.split(case.one("run"))]


def wanted_answer(case):
    """The whole answer that the case wants."""
    err = "".join(text + "\n" for text in case.all("err"))
    return Answer(output(case), err.encode(), int(case.one("exit")))


def run_case(case, program, folder):
    """Runs the case in an empty folder: None if it passes, else what was wrong."""
    got = run(program, laid_out(case, folder), folder)
    wrong = difference(wanted_answer(case), got)
    wanted = made(case)
    if wrong is None and wanted is not None:
        wrong = difference_made(wanted, folder / "O")
    return wrong


def named_files(case):
    """The files of tests/ that a case names."""
    texts = [text for key, text in case.lines if key in ("G", "F", "made")]
    return {text.split(" ")[0] for text in texts if re.match(r"(modules|texts|grammars)/", text)}


def check_files(all_cases):
    """Raises Unusable where a case names no file, or a file is named by no case."""
    names = set().union(*(named_files(case) for case in all_cases))
    folders = ("modules", "texts", "grammars")
    files = {
        str(path.relative_to(TESTS))
        for folder in folders
        for path in (TESTS / folder).iterdir()
        if path.suffix != ".spvasm" or not path.with_suffix(".spv").exists()
    }
    if names != files:
        raise Unusable(f"not a file, or named by no case: {', '.join(sorted(names ^ files))}")


def every_case():
    """The cases of all files, each name once."""
    paths = sorted((TESTS / "cases").glob("*.cases"))
    found = [case for path in paths for case in read_cases(path)]
    for name, times in Counter(case.one("case") for case in found).items():
        if times > 1:
            raise Unusable(f"{times} cases have the name {name}")
    check_files(found)
    return found


def all_cases():
    """The cases whose layers stand."""
    stands = layers_that_stand()
    return [case for case in every_case() if layers_of(case.one("layer")) <= stands]


def written():
    """The modules that cases have as texts, each by the name of its case."""
    return {case.one("case"): pieces(case)[0][0] for case in all_cases() if case.all("text")}


def checks():
    """A check for each case."""

    def check(case):
        return Check(
            case.one("case"),
            layers_of(case.one("layer")),
            lambda program, folder: run_case(case, program, folder),
        )

    return [check(case) for case in every_case()]
