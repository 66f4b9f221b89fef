"""What `check`, `explain` and `rules` write with `--json`: objects by docs/explain.schema.json that say what lines say.

An object is turned into the lines of `explain --full`, member by member, and these must be the ones that it writes: so
each member is told by a line, and each line by a member.
"""

import json
import re
import struct
from functools import lru_cache

from reading.assemble import assembled
from reading.owners import quoted as in_quotes
from reading.text import visible
from reading.verdict import grammar_in

from .cases import all_cases, laid_out, written
from .common import LAYERS as ALL_LAYERS
from .common import TESTS, Answer, Check, difference, run
from .many import NAMES, placed
from .ruled import PAGE, meanings, sentences
from .usage import BAD_USE, BROKEN, GRAMMAR, KERNEL, TEXT, under

LAYERS = frozenset(ALL_LAYERS)
SCHEMA = TESTS.parent / "docs/explain.schema.json"
TOOLS = frozenset({"jsonschema"})
JSON = "--json"
EXTENDED = "--extended"
OPENCL = "--opencl"
# The option by which a module is judged, and what an object says of it.
PROFILES = {"own": [], "extended": [EXTENDED], "opencl": [OPENCL]}
JUDGES = ("check", "explain")
# Members that are told in the line of the verdict or of the sentence, or with another one.
HEAD = ("file", "verdict", "code", "inst", "word", "rule", "section", "profile")
# A module that is refused with the operands of extended instructions alone.
INSIDE = TESTS / "modules/inside-of-an-extended-instruction.spv"
# How many files go into one run.
BATCH = 100


class Wrong(Exception):
    """What an object says is not what is wanted of it."""


# Objects as lines.


def operand_part(operand):
    """An operand that is told, after its number: an id, the name of a value, or a number."""
    if "id" in operand:
        return f" %{operand['id']}"
    return f" {operand['name']}" if "name" in operand else f" {operand['number']}" if "number" in operand else ""


def thing(told):
    """A type, a count, or nothing."""
    if told is None:
        return "nothing"
    if isinstance(told, dict):
        return told["text"] if "text" in told else f"%{told['id']}"
    return str(told)


def standing(text):
    """The operands of an instruction whose text this is, as words. Those of declarations and operations have no
    spaces."""
    result, _, rest = text.rpartition(" = ")
    opcode, *found = rest.split(" ")
    if result:
        found.insert(0 if opcode.startswith("OpType") else 1, result)
    return found


def whose(told, whole):
    """The operands that are of a type."""
    found = standing(whole["at"]["text"])
    operands = told.get("operands", ())
    more = f", and {len(operands) - 8} more" if len(operands) > 8 else ""
    return "".join(f", of operand {it} {found[it]}" for it in operands[:8]) + more


def typed(key):
    """The function that writes a line of a type and of the operands that are of it, or of a thing."""
    return lambda told, whole: [f"{key}: {thing(told)}" + (whose(told, whole) if isinstance(told, dict) else "")]


def types(told, whole):
    """The lines of types, and whose they are."""
    above = [", part of a type above" * (it.get("operands") == []) for it in told]
    return [f"type: {thing(it)}{whose(it, whole)}{more}" for it, more in zip(told, above)]


def ids(key):
    """The function that writes a line of ids."""
    return lambda told, _: [f"{key}:" + "".join(f" %{it}" for it in told)]


def result(key):
    """The function that writes a line of an id, if there is one."""
    return lambda told, _: [f"{key}:" + ("" if told is None else f" %{told}")]


def text(key):
    """The function that writes a line of a text or a number."""
    return lambda told, _: [f"{key}: {told}"]


def count(key):
    """The function that writes a line of a count, or that there is none."""
    return lambda told, _: [f"{key}: {'none' if told is None else told}"]


def inst(key):
    """The function that writes a line of an instruction."""
    return lambda told, _: [f"{key}: inst {told['inst']}, {told['text']}"]


def place(told, whole):
    """The function, its name in quotes if it has one, and the block if it is of one."""
    key, block = "open" if whole["code"] == "L2" else "in", whole.get("block")
    return [
        f"{key}: function"
        + (f" %{told}" if told is not None else "")
        + (f" {in_quotes(whole['functionName'])}" if "functionName" in whole else "")
        + (f", block %{block}" if block is not None else "")
    ]


def words(told, _):
    """Words in hexadecimal."""
    values = [f"{it:08x}" for it in told["values"]]
    return [" ".join(["words:", *[".."] * told["before"], *values, *[".."] * told["after"]])]


def failing_word(told, _):
    """The word that fails."""
    value = "" if told["value"] is None else f", 0x{told['value']:08x}"
    return [f"word: {told['index']}{value}"]


def may_come(told, whole):
    """The names of what may come."""
    return ["".join(["may come:", *(f" {it}" for it in told), " end of module" * whole.get("mayEnd", False)])]


LINES = {
    "at": lambda told, _: [f"at: {told['text']}"],
    "function": place,
    "functionName": lambda *_: [],
    "block": lambda *_: [],
    "words": words,
    "failingWord": failing_word,
    "opcode": lambda told, _: [f"opcode: {told['value']}" + (f" {told['name']}" if "name" in told else "")],
    "row": text("row"),
    "mayComeNext": may_come,
    "mayEnd": lambda *_: [],
    "missing": text("missing"),
    "operand": lambda told, _: [f"operand: {told['index']}{operand_part(told)}"],
    "due": lambda told, _: [f"due: {'nothing' if told is None else told}"],
    "bound": text("bound"),
    "defined": inst("defined"),
    "localTo": result("local to"),
    "role": text("role"),
    "earlier": inst("earlier"),
    "implied": text("implied"),
    "notImplied": text("not implied"),
    "bit": lambda told, _: [f"bit: {told.get('name', told['value'])}"],
    "needsOneOf": lambda told, _: ["needs one of:" + "".join(f" {it}" for it in told)],
    "part": text("part"),
    "called": inst("called"),
    "imported": inst("imported"),
    "condition": text("condition"),
    "types": types,
    "place": text("place"),
    "parameter": text("parameter"),
    "argument": text("argument"),
    "wanted": typed("wanted"),
    "found": typed("found"),
    "size": text("size"),
    "help": text("help"),
    "missingParent": result("missing parent"),
    "noPredecessor": lambda told, _: [f"no predecessor:{operand_part(told)}"],
    "twice": lambda told, _: [f"twice:{operand_part(told)}"],
    "predecessors": ids("predecessors"),
    "walk": ids("walk"),
    "calls": ids("calls"),
    "cycle": ids("cycle"),
    "number": text("number"),
    "operands": text("operands"),
    "least": count("least"),
    "most": count("most"),
    "otherOperand": lambda told, _: [f"other operand: {told['index']}{operand_part(told)}"],
    "onTheWay": result("on the way"),
    "given": inst("given"),
    "usedBy": inst("used by"),
    "since": text("since"),
}


def verdict_of(told):
    """The verdict line of an object."""
    if told["verdict"] == "valid":
        return "valid"
    at = f" inst {told['inst']} word {told['word']}" if "inst" in told else ""
    return f"fault {told['code']}{at}"


def lines_of(told):
    """The lines that an object of `explain` stands for, control characters escaped."""
    found = [verdict_of(told)]
    if told["verdict"] == "fault":
        found.append(f"rule: {told['rule']}")
        if not told["rule"].endswith(f"[{told['section']}]"):
            raise Wrong(f"{told['rule']} is not of {told['section']}")
    for member, value in told.items():
        if member not in HEAD:
            found += LINES[member](value, told)
    return [visible(it) for it in found]


# Objects.


@lru_cache(maxsize=1)
def validator():
    """What validates an object."""
    import jsonschema  # the check needs it, and the runner does not

    schema = json.loads(SCHEMA.read_text(encoding="utf-8"))
    jsonschema.Draft202012Validator.check_schema(schema)
    return jsonschema.Draft202012Validator(schema)


def members(pairs):
    """The members of an object, each once."""
    found = dict(pairs)
    if len(found) != len(pairs):
        raise Wrong(f"a member twice: {[name for name, _ in pairs]}")
    return found


def no_number(word):
    """A number that JSON has not."""
    raise Wrong(f"no JSON: {word}")


def object_of(line):
    """The object of a line, which is JSON without control characters, by the schema."""
    if any(it < 0x20 or it == 0x7F for it in line) or re.search(rb"\xc2[\x80-\x9f]", line):
        raise Wrong(f"a control character: {line[:300]!r}")
    try:
        told = json.loads(line.decode(), object_pairs_hook=members, parse_constant=no_number)
    except ValueError as error:
        raise Wrong(f"no JSON ({error}): {line[:300]!r}") from error
    wrong = next(iter(validator().iter_errors(told)), None)
    if wrong is not None:
        raise Wrong(f"not by the schema: {line[:600]!r}: {wrong.json_path}, {wrong.message[:200]}")
    return told


def objects(out):
    """The objects of an output, one a line."""
    if out and not out.endswith(b"\n"):
        raise Wrong(f"the last line has no end: {out[-300:]!r}")
    return [object_of(line) for line in out.split(b"\n")[:-1]]


def told_wrong(check):
    """A check that answers what is wrong as a text."""

    def checked(program, folder):
        try:
            return check(program, folder)
        except Wrong as wrong:
            return f"  {wrong}"

    return checked


# The modules of this folder.


def paths_of(folder):
    """The modules of tests/modules and of texts of cases."""
    paths = sorted((TESTS / "modules").glob("*.spv"))
    for name, content in written().items():
        paths.append(folder / f"{name}.spv")
        paths[-1].write_bytes(content)
    return paths


def parts_of(out, names):
    """The lines of `explain -H` of several files: of each file its part."""
    parts, rest = [], out.decode().split("\n")[:-1]
    heads = [f"{name}: " for name in names]
    for line in rest:
        if len(parts) < len(heads) and line.startswith(heads[len(parts)]):
            parts.append([line[len(heads[len(parts)]) :]])
        else:
            parts[-1].append(line)
    return parts


def judged(program, folder, *words, **how):
    """A run with these words under the grammar file of the profile."""
    return run(program, words, folder, **{"env": under(GRAMMAR), **how})


def same_as_lines(program, folder, names, *flags):
    """Raises where the objects of these files do not say what the lines say, with these flags."""
    lines = judged(program, folder, "explain", "--full", "-H", *flags, *names)
    found = judged(program, folder, "explain", JSON, *flags, *names)
    brief = judged(program, folder, "check", JSON, *flags, *names)
    if (lines.err, lines.status) != (found.err, found.status) or (brief.err, brief.status) != (lines.err, lines.status):
        raise Wrong(f"exit statuses or errors differ: {lines.status} {found.status} {brief.status}")
    wholes, briefs = objects(found.out), objects(brief.out)
    parts = parts_of(lines.out, names)
    if not len(wholes) == len(briefs) == len(parts) == len(names):
        raise Wrong(f"{len(wholes)} and {len(briefs)} objects of {len(names)} files")
    for name, whole, less, wanted in zip(names, wholes, briefs, parts):
        if whole["file"] != str(name):
            raise Wrong(f"{whole['file']} for {name}")
        if less != {member: value for member, value in whole.items() if member in HEAD}:
            raise Wrong(f"{name}: check has {less}, explain {whole}")
        if lines_of(whole) != wanted:
            raise Wrong(f"{name}\n  wanted: {wanted}\n  got:    {lines_of(whole)}")


def modules_as_lines(program, folder):
    """Of each module of this folder and of the texts of cases the objects say what the lines say, with the operands of
    extended instructions too."""
    paths = paths_of(folder)
    for at in range(0, len(paths), BATCH):
        same_as_lines(program, folder, paths[at : at + BATCH])
        same_as_lines(program, folder, paths[at : at + BATCH], EXTENDED)
    return None


def cases_as_lines(program, folder):
    """The same of all cases of `check` and `explain`, each under its own grammar file; an error stays one."""
    for number, case in enumerate(all_cases()):
        if case.one("run").split(" ")[:1] not in (["check"], ["explain"]):
            continue
        (folder / str(number)).mkdir()
        try:
            given = laid_out(case, folder / str(number))
        except ValueError:
            continue
        names = [it for it in given[1:] if it.endswith("/F")]
        if len(names) != 1 or "--quiet" in given:
            continue
        rest = [it for it in given[1:] if it not in ("--full", "-H", "--with-filename", "--no-filename")]
        lines = run(program, ["explain", "--full", *rest], folder)
        found = run(program, ["explain", JSON, *rest], folder)
        wrong = difference(Answer(b"", lines.err, lines.status), Answer(b"", found.err, found.status))
        told = [lines_of(it) for it in objects(found.out) if it["verdict"] != "error"]
        wanted = [lines.out.decode().split("\n")[:-1]] if lines.out else []
        if wrong or told != wanted:
            return f"  {case.one('case')}: {wrong}\n  wanted: {wanted}\n  got:    {told}"
    return None


def seldom(folder):
    """Modules of codes that no module of this folder has under any grammar file, each for the built-in grammar: one of
    three bytes, an OpTypeEvent (P1) and an OpSpecConstantOp (I12)."""
    head = KERNEL.read_bytes()[:20]
    contents = (
        b"123",
        head + struct.pack("<2I", 2 << 16 | 34, 1),
        head + struct.pack("<5I", 5 << 16 | 52, 1, 2, 128, 3),
    )
    for number, content in enumerate(contents):
        path = folder / f"seldom{number}.spv"
        path.write_bytes(content)
        yield path
    yield "/dev/zero"


def each_code(program, folder):
    """There is an object of every code that `explain` can answer: W2 to W8, I1 to G1, Y9, Y10 and O1 to O23; these under the
    built-in grammar, which has more than that of the profile."""
    paths, found = paths_of(folder), set()
    for at in range(0, len(paths), BATCH):
        for flags in PROFILES.values():
            grammar = under(None if OPENCL in flags else GRAMMAR)
            told = judged(program, folder, "check", JSON, *flags, *paths[at : at + BATCH], env=grammar).out
            found |= {it.get("code") for it in objects(told)}
    others = list(seldom(folder))
    told = objects(judged(program, folder, "explain", JSON, *others, env=under()).out)
    lines = parts_of(judged(program, folder, "explain", "--full", "-H", *others, env=under()).out, others)
    if [lines_of(it) for it in told] != lines:
        return f"  wanted: {lines}\n  got:    {told}"
    found |= {it["code"] for it in told}
    codes = [code for code, _ in sentences(PAGE.read_text(encoding="utf-8")) if code[0] not in "JSXN"]
    lacking = [code for code in codes if code not in found and code not in ("W1", "W9")]
    unknown = sorted(found - {None, *codes})
    return f"  no object of {lacking}, and some of {unknown}" if lacking or unknown else None


# Names, texts and errors.

ODD = (
    'quote".spv',
    "line\nfeed.spv",
    "back\\slash.spv",
    "\x1b[31m.spv",
    "\x7f\x9b31m.spv",
    "\x7f\x01.spv",
    "größe \u0085\u2028 \U0001f600",
    "<&>'.spv",
)


def odd_names(program, folder):
    """A name of a file stands in its object so that it can be had again, of a file that is not there too."""
    names = [*ODD, *(name for name in NAMES if not name.startswith("-") and name not in ODD)]
    for name in names:
        (folder / name).write_bytes(KERNEL.read_bytes())
    for command in JUDGES:
        found = objects(judged(program, folder, command, JSON, *names).out)
        if found != [{"file": name, "verdict": "valid", "profile": "own"} for name in names]:
            return f"  {command}: {found}"
        found = objects(judged(program, folder, command, JSON, *(f"no {name}" for name in names)).out)
        if found != [{"file": f"no {name}", "verdict": "error", "error": "file"} for name in names]:
            return f"  {command}: {found}"
    with KERNEL.open("rb") as file:
        found = objects(judged(program, folder, "check", JSON, "-", stdin=file).out)
    return None if found == [{"file": "-", "verdict": "valid", "profile": "own"}] else f"  -: {found}"


def names_that_are_no_text(program, folder):
    """A file whose name is no UTF-8 is not opened, and has an object, in which U+0000 stands for each octet that is
    none; the others are judged. No file that is named otherwise is taken for it."""
    name, beside = "no text \udcff\udc80.spv", "no text \ufffd\ufffd.spv"
    for of in (name, beside):
        (folder / of).write_bytes(KERNEL.read_bytes())
    error = {"file": "no text \0\0.spv", "verdict": "error", "error": "file"}
    for words in ["check", JSON], ["explain", JSON]:
        valid = {"file": str(KERNEL), "verdict": "valid", "profile": "own"}
        for names, wanted in ([name], [error]), ([name, KERNEL], [error, valid]):
            got = judged(program, folder, *words, *names)
            if objects(got.out) != wanted or got.status != 2:
                return f"  {words}: {got}"
    line = b"no text \\x00\\x00.spv: error file\n"
    rows = [
        (["check", name], Answer(b"", b"error file\n", 2)),
        (["check", name, KERNEL], Answer(f"{KERNEL}: valid\n".encode(), line, 2)),
        (["show", name], Answer(b"", b"error file\n", 2)),
        (["check", "--grammar", name, KERNEL], Answer(b"", b"error file\n", 2)),
        (["asm", "--out", name, TEXT], Answer(b"", b"error file\n", 2)),
        (["check\udcff", KERNEL], BAD_USE),
    ]
    wrong = next(filter(None, (difference(wanted, judged(program, folder, *words)) for words, wanted in rows)), None)
    if wrong:
        return wrong
    told = judged(program, folder, "check", "--verbose", name).err
    return None if b"the name is not UTF-8" in told else f"  {told}"


HOSTILE = "a\"b\\c<i>d</i>&amp;{e|f}%3 ; \x01\x1b[31m\x7f\x85\u2028\r\t\n\U0001f600'`$x"


def quoted(content):
    """A text as `show` writes it."""
    return '"' + content.replace("\\", "\\\\").replace('"', '\\"').replace("\n", "\\n") + '"'


def hostile_module(folder):
    """A module of a name with all kinds of characters, of an id that nothing defines (D3): its file, and the line."""
    line = f"OpName %9 {quoted(HOSTILE)}"
    lines = [
        "OpCapability Addresses",
        "OpCapability Kernel",
        "OpMemoryModel Physical64 OpenCL",
        'OpEntryPoint Kernel %3 "k"',
        line,
        "%1 = OpTypeVoid",
        "%2 = OpTypeFunction %1",
        "%3 = OpFunction %1 None %2",
        "%4 = OpLabel",
        "OpReturn",
        "OpFunctionEnd",
    ]
    path = folder / "hostile.spv"
    path.write_bytes(assembled(grammar_in(GRAMMAR), ["; Bound: 10", *lines]))
    return path, line


def hostile_texts(program, folder):
    """A text of a module stands in an object as `show` writes it, each control character in JSON's escapes."""
    path, shown = hostile_module(folder)
    same_as_lines(program, folder, [path])
    told = objects(judged(program, folder, "explain", JSON, path).out)[0]
    wanted = {"inst": 4, "text": shown}
    return None if told["code"] == "D3" and told["at"] == wanted else f"  wanted: {wanted}\n  got:    {told}"


def hostile_grammar(program, folder):
    """Names of a grammar file with all kinds of characters: of instructions that may come, kinds, values and more."""
    grammar = json.loads(GRAMMAR.read_text(encoding="utf-8"))
    for entry in grammar["instructions"]:
        entry["opname"] += HOSTILE
    for kind in grammar["operand_kinds"]:
        for it in kind.get("enumerants", ()) if kind["kind"] == "Capability" else ():
            it["enumerant"] += HOSTILE
    for it in [
        *grammar["instructions"],
        *(it for kind in grammar["operand_kinds"] for it in kind.get("enumerants", ())),
    ]:
        if "capabilities" in it:
            it["capabilities"] = [name + HOSTILE for name in it["capabilities"]]
    path = folder / "grammar.json"
    path.write_text(json.dumps(grammar), encoding="utf-8")
    for module in sorted((TESTS / "modules").glob("*.spv")):
        lines = run(program, ["explain", "--full", "--grammar", path, module], folder)
        told = objects(run(program, ["explain", JSON, "--grammar", path, module], folder).out)
        if lines_of(told[0]) != lines.out.decode().split("\n")[:-1]:
            return f"  {module.name}\n  wanted: {lines}\n  got:    {told}"
    return None


def errors(program, folder):
    """A file that is not read has its object, beside its line on standard error; the next ones follow."""
    placed(folder, a=KERNEL.read_bytes(), b=BROKEN.read_bytes())
    (folder / "folder").mkdir()
    names = ["a.spv", "absent.spv", "folder", "b.spv"]
    for command in JUDGES:
        got = judged(program, folder, command, JSON, *names)
        kinds = [(it["file"], it["verdict"], it.get("error")) for it in objects(got.out)]
        wanted = [
            ("a.spv", "valid", None),
            ("absent.spv", "error", "file"),
            ("folder", "error", "file"),
            ("b.spv", "fault", None),
        ]
        if kinds != wanted or (got.err, got.status) != (b"absent.spv: error file\nfolder: error file\n", 2):
            return f"  {command}: {got}"
    refused = folder / "refused.json"
    refused.write_bytes(b"[1")
    wanted = Answer(b"", b"error J1\n", 2)
    return difference(wanted, judged(program, folder, "check", JSON, "--grammar", refused, "a.spv"))


def among_options(program, folder):
    """Names before verdicts are asked for in vain; `--quiet` writes nothing; `--as-1.6`, `--extended` and `--grammar`
    go with it."""
    placed(folder, a=KERNEL.read_bytes(), b=BROKEN.read_bytes())
    content = KERNEL.read_bytes()
    (folder / "old.spv").write_bytes(content[:4] + struct.pack("<I", 0x00010000) + content[8:])
    for command in JUDGES:
        wanted = judged(program, folder, command, JSON, "b.spv", "a.spv")
        for words in (["-H"], ["--with-filename"], ["--no-filename"], ["--verbose"]):
            wrong = difference(wanted, judged(program, folder, command, *words, JSON, "b.spv", "a.spv"))
            if wrong:
                return f"  {command} {words}\n{wrong}"
        wrong = difference(Answer(b"", b"", 1), judged(program, folder, command, JSON, "--quiet", "b.spv", "a.spv"))
        found = objects(judged(program, folder, command, JSON, "--as-1.6", "old.spv").out)
        if wrong or found != [{"file": "old.spv", "verdict": "valid", "profile": "own"}]:
            return wrong or f"  {command} --as-1.6: {found}"
        if objects(judged(program, folder, command, JSON, "old.spv").out)[0]["code"] != "W5":
            return f"  {command}: of another version"
        for profile, words in PROFILES.items():
            told = [it["profile"] for it in objects(judged(program, folder, command, JSON, *words, "a.spv", "b.spv").out)]
            if told != [profile, profile]:
                return f"  {command} {words}: {told}"
        found = objects(judged(program, folder, command, JSON, EXTENDED, OPENCL, "old.spv").out)
        if found != [{"file": "old.spv", "verdict": "valid", "profile": "opencl"}]:
            return f"  {command} --extended --opencl: {found}"
        inside = [objects(judged(program, folder, command, JSON, *it, INSIDE).out)[0] for it in ([], [EXTENDED])]
        if [it.get("code") for it in inside] != [None, "D1"]:
            return f"  {command}: {inside}"
    alone = judged(program, folder, "explain", "--full", JSON, "b.spv")
    return difference(judged(program, folder, "explain", JSON, "b.spv"), alone)


def rules_told(program, folder):
    """`rules --json` has an object for each code, and that of one code has all that breaks it."""
    page = PAGE.read_text(encoding="utf-8")
    of_codes = sentences(page)
    listed = objects(judged(program, folder, "rules", JSON).out)
    told = [(it["code"], it["rule"].replace("`", "")) for it in listed]
    of_others = [it for it in listed if "meaning" in it or not it["rule"].endswith(f"[{it['section']}]")]
    if told != of_codes or of_others:
        return f"  {[it for it in told if it not in of_codes]}"
    broken_where = meanings(page, [code for code, _ in of_codes])
    for whole, (code, _) in zip(listed, of_codes):
        for asked in (code, code.lower()):
            alone = objects(judged(program, folder, "rules", JSON, asked).out)
            rest = alone[0].pop("meaning", "").replace("`", "").split("\n")
            if alone != [whole] or rest != broken_where[code]:
                return f"  {asked}: {alone} {rest}\n  and not {whole} {broken_where[code]}"
    return None


def schema_refuses(_program, _folder):
    """The schema refuses what is no object of the program, so that a comparison with it says something."""
    fault = {"verdict": "fault", "code": "A1", "inst": 1, "word": 9, "rule": "A rule. [2.16]", "section": "2.16"}
    fault["profile"] = "own"
    line = {"inst": 1, "text": "a"}
    good = [
        {"verdict": "valid", "profile": "opencl"},
        {"file": "a", "verdict": "error", "error": "memory"},
        fault,
        {**fault, "walk": [1], "operand": {"index": 2, "id": 3}, "defined": line},
        {**fault, "code": "O22", "most": 255},
        {**fault, "code": "O4", "defined": line, "calls": [1], "usedBy": line},
    ]
    bad = [
        {},
        [],
        {"verdict": "valid", "profile": "own", "code": "A1"},
        {"verdict": "valid"},
        {"verdict": "valid", "profile": "other"},
        {"verdict": "error"},
        {**fault, "code": "A0"},
        {**fault, "code": "J1"},
        {**fault, "inst": -1},
    ]
    bad += [{**fault, "walk": ["%1"]}, {**fault, "walk": [1]}, {**fault, "other": 1}, {**fault, "code": "W2"}]
    bad += [{**fault, "otherOperand": {"index": 2}}, {**fault, "code": "O21", "since": "4"}]
    bad += [{**fault, "defined": line}, {**fault, "calls": [1]}, {**fault, "defined": line, "usedBy": line}]
    bad += [{name: value for name, value in fault.items() if name != lost} for lost in fault]
    wrong = [it for it in good if not validator().is_valid(it)] + [it for it in bad if validator().is_valid(it)]
    return f"  {wrong}" if wrong else None


def checks():
    """All of these."""
    found = [
        ("modules beside the lines", modules_as_lines),
        ("cases beside the lines", cases_as_lines),
        ("every code", each_code),
        ("names of all kinds", odd_names),
        ("names that are no text", names_that_are_no_text),
        ("texts of all kinds", hostile_texts),
        ("a grammar file of all kinds of names", hostile_grammar),
        ("files that are not read", errors),
        ("beside other options", among_options),
        ("rules", rules_told),
        ("the schema refuses", schema_refuses),
    ]
    return [Check(f"objects: {name}", LAYERS, told_wrong(run_it), TOOLS) for name, run_it in found]
