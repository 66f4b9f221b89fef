"""The index of the rules, docs/RULES.md: a line for each, with where it is said, decided, shown and tried."""

import re
from functools import lru_cache

from . import believed
from .believed import CRATES, NotFound
from .cases import read_cases
from .common import LAYERS, TESTS, Check, layers_of, layers_that_stand

PAGE = believed.TOP / "docs/RULES.md"
HEADING = """# An index of the rules

A line for each code of a verdict, in the order in which the stages ask for them: what it is about, the definitions that say it, the functions that answer it, the evidence that `explain` has of it, and a case in which the program answers it. [PROFILE.md](PROFILE.md) says in words what each code means, and [BELIEVE.md](BELIEVE.md) in which order to read the definitions. `tests/index` writes this page, and `tests/run` fails where it differs from what the script finds.

- **Definitions** stand in `crates/CRATE/specs/FILE.antt`, written CRATE/FILE here. Behind a colon stand the constructors that speak of this code alone; a definition without any speaks of it by its fields or its clauses.
- **Answered by** has the functions whose bodies name the code, in `crates/CRATE/src/FILE.rt`: where it is answered, and where to begin to read how it is decided.
- **Evidence** is a constructor of `IsEvidence`, or of `Shows`, which that is made of: what is proved of the numbers that `explain` shows. Of W2 to W8 it shows what stands in the bytes, and has no evidence.
- **Case** is a case of `tests/cases` in which a check answers the code, and how many there are in all.

| Code | About | Definitions | Answered by | Evidence | Case |
|---|---|---|---|---|---|
"""

# The crates whose functions answer codes, from the bytes up.
ANSWERING = (
    "spv_words",
    "spv_inst",
    "spv_layout",
    "spv_ids",
    "spv_type_rules",
    "spv_capabilities",
    "spv_flow",
    "spv_block_order",
    "spv_declarations",
    "spv_kernel_operands",
    "spv_standard",
    "spv_check",
)
EVIDENCE = ("spv_*evidence/specs/**/*.antt", "spv_explain/specs/Mistyped.antt")
CONSTRUCTOR = re.compile(r"^  ([a-z]\w*) :", re.M)
FUNCTION = re.compile(r"^\s*(?:pub(?:\([^)]*\))? )?fn (\w+)")
# What only reads a code that another function answered: an arm of a match, a test, a line of the proof.
READING = re.compile(r"^\s*(?://|ghost |ensures |requires |\|)|matches!|=>\s*\S*\s*$")
# The files of cases that are named last.
LATER = ("cuts", "extended")
# What is refused at an operand, whatever the rule: one constructor speaks of all codes.
ANY_OPERAND = ("spv_form_evidence/specs/words/Evidence.antt", "Shows", "refused")
# That a rule O is broken, where nothing else shows it: one constructor speaks of all of them.
ANY_STANDARD = ("spv_explain/specs/Evidence.antt", "IsEvidence", "of_standard")


def codes_in(text):
    """The codes that a list of codes has, as `I4, I6 to I12`."""
    for part in text.split(", "):
        letter, first, _, last = re.fullmatch(r"([A-Z])(\d+)( to [A-Z](\d+))?", part).groups()
        yield from (f"{letter}{number}" for number in range(int(first), int(last or first) + 1))


def all_codes():
    """The codes of a verdict, in the order in which the code declares them: all but a failed read and out of memory."""
    codes = [it for file, name in believed.ORDERS[:2] for it in believed.variants(file, name)]
    return [it for it in codes if it not in ("W1", "W9")]


def constructors(definition, code):
    """The constructors of a definition that speak of this code: those that end in it."""
    text = "\n".join(re.sub(r"--.*", "", line) for line in definition.lines)
    starts = [*CONSTRUCTOR.finditer(text)]
    ends = [it.start() for it in starts[1:]] + [len(text)]
    for start, end in zip(starts, ends):
        answer = text[start.end() : end].rsplit("→", 1)[-1]
        if re.search(rf"(?<![\w.])(?:rule\.)?{code}(?![\w.])", answer):
            yield start[1]


def named(path, name, code, every=False):
    """A definition by its name and file, with its constructors of this code; where `every` is set, none without."""
    definition = believed.read(path)[0].get(name)
    if definition is None:
        raise NotFound(f"{path.relative_to(CRATES)} has no {name}")
    found = [f"`{it}`" for it in constructors(definition, code)]
    if every and not found:
        return None
    place = str(path.relative_to(CRATES).with_suffix("")).replace("/specs", "")
    return f"`{name}` ({place})" + (f": {', '.join(found)}" if found else "")


def definitions(code):
    """What a code is about, and the definitions that say it."""
    about, found = [], []
    for codes, words, kept, broken in believed.RULES:
        if code in codes_in(codes):
            about.append(words)
            found += [named(CRATES / file, name, code) for file, name in (*kept, *broken)]
    return "; ".join(about), "; ".join(found)


def functions(code):
    """The functions that answer a code."""
    word = re.compile(rf"\b(?:Rule|WordError)::{code}\b(?!\s*(?:=>|\|))")
    found = []
    for crate in ANSWERING:
        for path in sorted((CRATES / crate / "src").rglob("*.rt")):
            last = None
            for line in path.read_text(encoding="utf-8").splitlines():
                last = (FUNCTION.match(line) or [None, last])[1]
                if last and word.search(line) and not READING.search(line):
                    found.append(f"`{last}` ({crate}/{path.relative_to(CRATES / crate / 'src').with_suffix('')})")
    return "; ".join(dict.fromkeys(found))


def evidence(code):
    """The constructors of evidence of a code."""
    found = []
    for path in sorted(it for files in EVIDENCE for it in CRATES.glob(files)):
        for name in ("Shows", "IsEvidence"):
            if name in believed.read(path)[0] and "/inner/" not in str(path):
                found.append(named(path, name, code, every=True))
    found = [it for it in found if it]
    general = {"I": ANY_OPERAND, "O": ANY_STANDARD}.get(code[0])
    if not found and general:
        file, name, constructor = general
        if constructor not in CONSTRUCTOR.findall("\n".join(believed.read(CRATES / file)[0][name].lines)):
            raise NotFound(f"{file} has no {constructor}")
        return f"`{name}` ({file.replace('/specs', '').removesuffix('.antt')}): `{constructor}`"
    return "; ".join(found)


@lru_cache(maxsize=None)
def checked():
    """The cases of a check whose layers stand, each as the page names it, with the first line of its answer."""
    found, stands = [], layers_that_stand()
    for path in sorted((TESTS / "cases").glob("*.cases"), key=lambda it: (it.stem in LATER, it.stem)):
        for case in read_cases(path):
            out, is_there = case.all("out"), layers_of(case.one("layer")) <= stands
            if is_there and case.one("run").startswith("check ") and out:
                found.append((f"`{case.one('case')}` ({path.stem})", out[0]))
    return found


def cases(code):
    """A case in which a check answers a code, and how many there are: the first, of modules that are cut and of checks
    with --extended only where there is no other."""
    found = [text for text, line in checked() if re.match(rf"fault {code}\b", line)]
    return f"{found[0]}, {len(found)} in all" if found else ""


def page():
    """The page as it is to be."""
    rows = []
    for code in all_codes():
        about, said = definitions(code)
        cells = (code, about, said, functions(code), evidence(code), cases(code))
        rows.append("| " + " | ".join(cells) + " |\n")
    return HEADING + "".join(rows)


def lacking():
    """The codes of instructions for which a column has nothing: there may be none."""
    for code in believed.variants(*believed.ORDERS[1]):
        if not all((definitions(code)[1], functions(code), evidence(code), cases(code))):
            yield code


def is_kept(_program, _folder):
    """The page is what the script writes, and no rule lacks a definition, a function, evidence or a case."""
    try:
        wanted, bare = page(), [*lacking()]
    except NotFound as reason:
        return f"  {reason}"
    if bare:
        return "  a column has nothing for: " + ", ".join(bare)
    if not PAGE.is_file() or PAGE.read_text(encoding="utf-8") != wanted:
        return f"  {PAGE.name} differs from what tests/index prints"
    return None


def checks():
    """The one check."""
    return [Check("index of the rules", frozenset(LAYERS[:1]), is_kept)]
