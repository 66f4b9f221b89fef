"""The text for reading, `spv annotate`, beside a second reading of docs/PROFILE.md, and its colours.

Without comments and empty lines the text must be that of `show`, control characters escaped; each comment must say what
reading/annotate.py says; and the lines below a fault must be those of `explain`.
"""

import os
import pty
import subprocess
import threading

from reading.annotate import DIM, PLAIN, RED, VERDICT, Reading, differences, opencl_names, shown_of
from reading.assemble import assembled
from reading.facts import FUNCTION, Facts
from reading.profiles import Profile
from reading.text import visible
from reading.verdict import grammar_in

from . import opencl
from .cases import OPENCL, all_cases, grammar, laid_out, written
from .common import LAYERS as ALL_LAYERS
from .common import SECONDS, TESTS, Answer, Check, difference, run
from .json_objects import HOSTILE, quoted
from .usage import BROKEN, GRAMMAR, KERNEL, under

LAYERS = frozenset(ALL_LAYERS)
NO_FUNCTION = Answer(b"", b"error X2\n", 2)
# Codes of a module of which no function is shown alone.
BEFORE_FUNCTIONS = "WIPL"
MOST_BYTES = 200_000


def asked(program, folder, *words, **how):
    """A run under the grammar file of the profile."""
    return run(program, words, folder, **{"env": under(GRAMMAR), **how})


def text_of(answer):
    """The text of an answer, whatever octets it has."""
    return answer.out.decode("utf-8", "surrogateescape")


def functions_of(facts):
    """The ids of the functions, each once."""
    return list(dict.fromkeys(it.result for it in facts.insts if it.opcode == FUNCTION))


def code_of(printed):
    """The first letter of the code that is reported, a space where the module is valid."""
    return printed[0].split(" ")[1][0] if printed[0] != "valid" else " "


def refused(printed):
    """The answer where no text is written."""
    return Answer(f"{printed[0]}\n".encode(), b"", 1)


def lines_differ(reading, answer, function=None, status=0):
    """None if an answer is the text that the second reading has, else what is wrong."""
    if (answer.err, answer.status) != (b"", status):
        return f"  {answer}"
    text = text_of(answer)
    if not text.endswith("\n"):
        return "  the last line has no end"
    return differences(reading.lines(function), text.split("\n")[:-1])


def law_differs(program, folder, text, *words):
    """None if the text without comments and empty lines is that of `show`, control characters escaped, but for the `%`
    of literals."""
    shown = text_of(asked(program, folder, "show", *words)).split("\n")[:-1]
    wanted = [without_literals(visible_in_quotes(line)) for line in shown]
    found = [without_literals(line) for line in shown_of(text)]
    return None if found == wanted else f"  without comments: {found[:40]}\n  and not {wanted[:40]}"


def without_literals(line):
    """A line in which the operands of an extended instruction, of which some may be literals, have no `%`."""
    words = line.split(" ")
    return " ".join([*words[:6], *(it.lstrip("%") for it in words[6:])]) if words[2:3] == ["OpExtInst"] else line


def visible_in_quotes(line):
    """A line of `show` with its control characters escaped."""
    return visible(line)


def module_differs(program, folder, grammar_file, facts, path, flags=()):
    """None if `annotate` of a module is right, whole and of each function, else what is wrong."""
    words = [*flags, "--grammar", grammar_file, path]
    printed = text_of(asked(program, folder, "explain", *words)).split("\n")[:-1]
    whole = asked(program, folder, "annotate", *words)
    if code_of(printed) in "WI":
        alone = asked(program, folder, "annotate", "--function", "1", *words)
        wrong = difference(refused(printed), alone)
        if code_of(printed) == "W":
            return wrong or difference(refused(printed), whole)
        # (those before the one that is malformed)
        return wrong or lines_differ(Reading(facts, printed), whole, status=1)
    reading = Reading(facts, printed)
    wrong = lines_differ(reading, whole) or law_differs(program, folder, text_of(whole), *words)
    for function in functions_of(facts):
        alone = asked(program, folder, "annotate", "--function", str(function), *words)
        if code_of(printed) in BEFORE_FUNCTIONS:
            wrong = wrong or difference(refused(printed), alone)
        else:
            wrong = wrong or lines_differ(reading, alone, function)
    return wrong


def modules_of_opencl_read(program, folder):
    """Those of texts of cases of `--opencl`."""
    file, profile = TESTS / OPENCL, Profile.OPENCL
    grammar_read, path = grammar_in(file), folder / "module.spv"
    for name, content in opencl.written().items():
        path.write_bytes(content)
        wrong = module_differs(program, folder, file, Facts(grammar_read, content, profile), path, profile.flags)
        if wrong:
            return f"  {name}\n{wrong}"
    return None


def modules_read(program, folder):
    """All modules of tests/modules, and those of texts of cases."""
    grammar_read = grammar_in(GRAMMAR)
    found = [(path.stem, path.read_bytes()) for path in sorted((TESTS / "modules").glob("*.spv"))]
    for name, content in [*found, *written().items()]:
        path = folder / "module.spv"
        path.write_bytes(content)
        wrong = module_differs(program, folder, GRAMMAR, Facts(grammar_read, content), path)
        if wrong:
            return f"  {name}\n{wrong}"
    return None


def cases_with_words(folder):
    """The cases that read a module, laid out in the folder, each with the words that name its grammar and module."""
    for number, case in enumerate(all_cases()):
        if case.one("run").split(" ")[:1] not in (["check"], ["explain"], ["show"]) or grammar(case) is None:
            continue
        place = folder / str(number)
        place.mkdir()
        laid_out(case, place)
        if not (place / "F").is_file():
            (place / "F").write_bytes(KERNEL.read_bytes())
        if (place / "F").stat().st_size > MOST_BYTES:
            continue
        words = ["--grammar", place / "G", place / "F"]
        yield case, words


def beginning_differs(shown, got):
    """None if an answer has the line of a verdict first, and what explains it last, else what is wrong."""
    verdict = text_of(shown)
    lines = text_of(got).split("\n")
    is_right = (got.err, got.status) == (b"", 1) and f"{lines[0]}\n" == f"; {verdict}"
    return None if is_right and lines[-2].startswith("; ^ ") and f"; ^ {verdict[:-1]}" in lines else f"  {got}"


def cases_read(program, folder):
    """The modules of all other cases, each under its own grammar file: the verdict line where there is no text, the
    error where the grammar file is refused, and else the text of `show` with comments."""
    for case, words in cases_with_words(folder):
        shown, got = asked(program, folder, "show", *words), asked(program, folder, "annotate", *words)
        if shown.out.startswith(b"fault I"):
            wrong = beginning_differs(shown, got)
        elif shown.status != 0:
            wrong = difference(shown, got) or difference(shown, asked(program, folder, "annotate", "--html", *words))
        elif (got.err, got.status) != (b"", 0):
            wrong = f"  {got}"
        else:
            wrong = law_differs(program, folder, text_of(got), *words)
        if wrong:
            return f"  {case.one('case')}\n{wrong}"
    return None


# Notes.

FLOATS = (0x3DCCCCCD, 0, 0x80000000, 0x3F800000, 0x7F800000, 0xFF800000, 0x7FC00001, 1, 0x7F7FFFFF, 0x4B800000)
DOUBLES = (0x3FB999999999999A, 0, 1 << 63, 0x7FF << 52, 0x7FF8000000000001, 1, 0x7FEFFFFFFFFFFFFF, 0x4340000000000000)
HALVES = (0x3C00, 0, 0x8000, 0x7C00, 0xFC00, 0x7E00, 1, 0x7BFF, 0x2E66)
# (what of a name takes forty octets in a page, and what takes more)
LONG_NAMES = [
    (12, "a" * 39 + "b" + "c"),
    (13, "<" * 10),
    (14, "<" * 11),
    (15, '"' * 64),
    (16, "\x01" * 64),
    (18, "ab\x85" * 10),
    (3, "operator<<(std::vector<int> const&, int)"),
]
DECLARATIONS = [
    "OpCapability Addresses",
    "OpCapability Kernel",
    "OpCapability Float64",
    "OpCapability Float16Buffer",
    'OpExtension "SPV_KHR_no_integer_wrap_decoration"',
    '%50 = OpExtInstImport "OpenCL.std"',
    '%51 = OpExtInstImport "OpenCL.other"',
    '%49 = OpExtInstImport "OpenCL.DebugInfo.100"',
    "OpMemoryModel Physical64 OpenCL",
    'OpEntryPoint Kernel %10 "k;k"',
    'OpEntryPoint Kernel %10 "ke;rnel"',
    "OpExecutionMode %10 ContractionOff",
    '%52 = OpString "a ; b"',
    'OpName %10 "ke;rnel"',
    'OpName %10 "other"',
    f"OpName %11 {quoted(HOSTILE)}",
    'OpName %17 "sum"',
    'OpName %2 ""',
    *(f"OpName %{of} {quoted(name)}" for of, name in LONG_NAMES),
    "OpDecorate %11 Alignment 4",
    "%1 = OpTypeVoid",
    "%2 = OpTypeInt 32 0",
    "%3 = OpTypeBool",
    "%5 = OpTypeFloat 32",
    "%6 = OpTypeFloat 64",
    "%7 = OpTypeFloat 16",
    "%4 = OpTypeFunction %1 %2 %3",
    *(f"%{60 + at} = OpConstant %5 0x{bits:08x}" for at, bits in enumerate(FLOATS)),
    *(f"%{80 + at} = OpConstant %6 0x{bits:016x}" for at, bits in enumerate(DOUBLES)),
    *(f"%{100 + at} = OpConstant %7 0x{bits:08x}" for at, bits in enumerate(HALVES)),
    "%59 = OpConstant %2 7",
]
BEGUN = [
    "%10 = OpFunction %1 None %4",
    "%11 = OpFunctionParameter %2",
    "%12 = OpFunctionParameter %3",
    "%13 = OpLabel",
]
LOOP = [
    "%53 = OpExtInst %5 %50 61 %60",
    "%54 = OpExtInst %5 %51 61 %60",
    # (vloadn, vstore_half_r and DebugTypeVector have a literal, which `asm` reads as an id; of the other set nothing is
    # known)
    "%55 = OpExtInst %5 %50 171 %60 %17 %2",
    "%56 = OpExtInst %1 %50 176 %60 %17 %11 %3",
    "%57 = OpExtInst %1 %49 6 %60 %4",
    "%58 = OpExtInst %5 %51 171 %60 %17 %2",
    "OpBranch %14",
    "%14 = OpLabel",
    "%17 = OpPhi %2 %11 %13 %18 %15",
    "OpBranchConditional %12 %15 %16",
    "%15 = OpLabel",
    "%18 = OpIAdd %2 %17 %11",
    "OpSwitch %18 %14 7 %14 9 %16",
    "%16 = OpLabel",
]
ENDED = ["OpReturn", "OpFunctionEnd"]


def noted(program, folder):
    """A module with all that a comment may say: names, odd ones and second ones, numbers of all floats, names of
    OpenCL.std, and blocks that several branches lead to."""
    grammar_read = grammar_in(GRAMMAR)
    content = assembled(grammar_read, [*DECLARATIONS, *BEGUN, *LOOP, *ENDED])
    path = folder / "module.spv"
    path.write_bytes(content)
    wrong = module_differs(program, folder, GRAMMAR, Facts(grammar_read, content), path)
    text = text_of(asked(program, folder, "annotate", path))
    wanted = ["NaN 0x7fc00001", "NaN 0x7ff8000000000001", "NaN 0x7e00", "%17 sum", ", sqrt", "from %13 %15"]
    wanted += ["; inst 0 word 5", "ke;rnel"]
    wanted += [" 171 %60 %17 2 ", " 176 %60 %17 %11 3 ", " %49 6 %60 4 ", " %51 171 %60 %17 %2 "]
    lacking = [it for it in wanted if it not in text]
    return wrong or (f"  lacks {lacking}:\n{text}" if lacking else None)


# Instructions that use named ids several times: a sum of one value, a call with 200 arguments that are one, and a
# composite of 20 constants, three times each.
OF_INT, PARTS = 200, range(100, 120)
REPEATED = [
    "OpCapability Addresses",
    "OpCapability Kernel",
    "OpMemoryModel Physical64 OpenCL",
    'OpEntryPoint Kernel %10 "main"',
    *(f'OpName %{of} "{name}"' for of, name in ((2, "int"), (12, "sum"), (14, "callee"))),
    *(f'OpName %{of} "part{of}"' for of in PARTS),
    "%1 = OpTypeVoid",
    "%2 = OpTypeInt 32 0",
    "%3 = OpTypeFunction %1",
    f"%4 = OpTypeFunction %1{' %2' * OF_INT}",
    f"%5 = OpTypeStruct{' %2' * (3 * len(PARTS))}",
    *(f"%{of} = OpConstant %2 {of}" for of in PARTS),
    f"%6 = OpConstantComposite %5{''.join(f' %{of}' for of in [*PARTS, *PARTS[::-1], *PARTS])}",
    "%10 = OpFunction %1 None %3",
    "%11 = OpLabel",
    "%12 = OpIAdd %2 %100 %100",
    f"%13 = OpFunctionCall %1 %14{' %12' * OF_INT}",
    *ENDED,
    "%14 = OpFunction %1 None %4",
    *(f"%{200 + at} = OpFunctionParameter %2" for at in range(OF_INT)),
    "%15 = OpLabel",
    *ENDED,
]
# What comments tell of them.
TOLD_ONCE = {
    "OpTypeFunction %1 %2": ["%2 int"],
    "OpConstantComposite": [f"%{of} part{of}" for of in PARTS],
    "OpIAdd": ["%2 int", "%12 sum", "%100 part100"],
    "OpFunctionCall": ["%14 callee", "%12 sum"],
}


def names_once(program, folder):
    """The name of an id that an instruction uses several times stands once, where it is used first."""
    grammar_read = grammar_in(GRAMMAR)
    content = assembled(grammar_read, REPEATED)
    path = folder / "module.spv"
    path.write_bytes(content)
    wrong = module_differs(program, folder, GRAMMAR, Facts(grammar_read, content), path)
    if wrong:
        return wrong
    lines = text_of(asked(program, folder, "annotate", path)).split("\n")
    for front, names in TOLD_ONCE.items():
        told = [line.split(", ")[1:] for line in lines if f" {front} " in line]
        if told != [names]:
            return f"  {front}: {told}, and not {names}"
    return None


def names_of_opencl(program, folder):
    """Each instruction of OpenCL.std has its name of Khronos' file, and other numbers none."""
    grammar_read = grammar_in(GRAMMAR)
    insts = [f"%{1000 + number} = OpExtInst %5 %50 {number}" for number in range(max(opencl_names()) + 3)]
    content = assembled(grammar_read, [*DECLARATIONS, *BEGUN, *insts, *ENDED])
    path = folder / "module.spv"
    path.write_bytes(content)
    facts = Facts(grammar_read, content)
    printed = text_of(asked(program, folder, "explain", path)).split("\n")[:-1]
    return lines_differ(Reading(facts, printed), asked(program, folder, "annotate", path))


# One function, and colours.


def no_such_function(program, folder):
    """An id that is no function of the module is `error X2`, of each form; a fault before functions is told first."""
    short = folder / "short.spv"
    short.write_bytes(b"123")
    for words in ["annotate"], ["annotate", "--html"], ["graph"]:
        for of in ("0", "4", "5", "4294967295", "4294967296", "%3", "l", ""):
            wrong = difference(NO_FUNCTION, asked(program, folder, *words, "--function", of, KERNEL))
            if wrong:
                return f"  {words} {of}\n{wrong}"
        wanted = Answer(b"fault W2\n", b"", 1)
        wrong = difference(wanted, asked(program, folder, *words, "--function", "3", short))
        if wrong:
            return f"  {words} of three bytes\n{wrong}"
    return None


def uncoloured(text):
    """A text without the orders for colours."""
    for order in (DIM, RED, PLAIN):
        text = text.replace(order, "")
    return text


def coloured(program, folder):
    """With `--color=always` each comment is dim, and the line of the verdict and each below a fault red; without them
    the text is the same."""
    for path in (KERNEL, BROKEN):
        plain = text_of(asked(program, folder, "annotate", path)).split("\n")
        for words in (["--color=always"], ["--color", "always"]):
            lines = text_of(asked(program, folder, "annotate", *words, path)).split("\n")
            if [uncoloured(line) for line in lines] != plain:
                return f"  {path.name} {words}: {lines}"
        top = int(uncoloured(lines[0]).startswith(VERDICT))
        for line in [*lines[:top], *lines[top + 5 :]]:
            at = line.find("; ")
            if at < 0:
                continue
            is_mark = uncoloured(line).startswith((VERDICT, "; ^ "))
            order = RED if is_mark else DIM
            if not line[:at].rstrip(" ").endswith(order) or not line.endswith(PLAIN) or line.count("\x1b") != 2:
                return f"  {path.name}: {line!r}"
    return None


def on_terminal(program, words, folder, env):
    """What a run writes on a terminal that is its standard output."""
    ours, theirs = pty.openpty()
    found = []

    def listen():
        try:
            while True:
                found.append(os.read(ours, 65536))
        except OSError:  # the terminal's other end is closed
            pass

    with subprocess.Popen(
        [str(program), *map(str, words)], cwd=folder, stdin=subprocess.DEVNULL, stdout=theirs, env=env
    ) as child:
        os.close(theirs)
        listener = threading.Thread(target=listen)
        listener.start()
        child.wait(SECONDS)
        listener.join()
    os.close(ours)
    return b"".join(found).replace(b"\r\n", b"\n")


def colours_by_place(program, folder):
    """Colours stand on a terminal alone, and not where NO_COLOR has a text; `--color` decides before both."""
    plain = asked(program, folder, "annotate", BROKEN).out
    always = asked(program, folder, "annotate", "--color=always", BROKEN).out
    bare = {name: text for name, text in under(GRAMMAR).items() if name != "NO_COLOR"}
    rows = [
        ([], {}, always),
        (["--color=auto"], {}, always),
        (["--color=never"], {}, plain),
        ([], {"NO_COLOR": "1"}, plain),
        ([], {"NO_COLOR": ""}, always),
        (["--color=auto"], {"NO_COLOR": "1"}, plain),
        (["--color=always"], {"NO_COLOR": "1"}, always),
    ]
    for words, variables, wanted in rows:
        got = on_terminal(program, ["annotate", *words, BROKEN], folder, {**bare, **variables})
        if got != wanted:
            return f"  {words} {variables}\n  wanted: {wanted[:300]!r}\n  got:    {got[:300]!r}"
    for words in ([], ["--color=auto"], ["--color=never"]):
        wrong = difference(Answer(plain, b"", 0), asked(program, folder, "annotate", *words, BROKEN))
        if wrong:
            return f"  in a pipe {words}\n{wrong}"
    return None if plain != always else "  no colours"


# Two functions that OpName calls `same`, one that it calls 3, and one that has the name of its entry point alone.
NAMED = [
    "OpCapability Addresses",
    "OpCapability Kernel",
    "OpMemoryModel Physical64 OpenCL",
    'OpEntryPoint Kernel %3 "k"',
    'OpEntryPoint Kernel %5 "other"',
    'OpName %5 "3"',
    'OpName %7 "same"',
    'OpName %9 "same"',
    'OpName %1 "void"',
    "%1 = OpTypeVoid",
    "%2 = OpTypeFunction %1",
    *(line for of in (3, 5, 7, 9) for line in (f"%{of} = OpFunction %1 None %2", f"%{of + 1} = OpLabel", *ENDED)),
]
# What `--function` chooses by each of these names: an id, nothing, or several.
CHOSEN = {"k": "3", "3": "3", "\N{THAI DIGIT THREE}": None, "same": "same", "void": None, "other": None}


def by_name(program, folder):
    """A function is chosen by its name as by its id; a number is an id, and a name is that of one function."""
    (folder / "named.spv").write_bytes(assembled(grammar_in(GRAMMAR), NAMED))
    trace = ["trace", "--limit", "9"]
    for words in ["annotate"], ["annotate", "--html"], ["graph"], trace:
        for name, of in CHOSEN.items():
            got = asked(program, folder, *words, "--function", name, "named.spv")
            if of is None:
                wanted = Answer(b"", b"error X1\n" if words is trace else b"error X2\n", 2)
            elif of == "same":
                wanted = Answer(b"", b"error use\n", 2)
            else:
                wanted = asked(program, folder, *words, "--function", of, "named.spv")
            if got != wanted or (of == "3" and got.status):
                return f"  {words} {name}\n{difference(wanted, got)}"
    told = asked(program, folder, "graph", "--verbose", "--function", "same", "named.spv").err.decode()
    return None if told.startswith("error use\n") and "several" in told else f"  {told}"


def of_standard_input(program, folder):
    """`-` is the standard input, of each form."""
    for words in ["annotate"], ["annotate", "--function", "10"], ["graph"], ["graph", "--function", "10"]:
        wanted = asked(program, folder, *words, BROKEN)
        with BROKEN.open("rb") as file:
            wrong = difference(wanted, asked(program, folder, *words, "-", stdin=file))
        if wrong or wanted.status != 0:
            return f"  {words}\n{wrong or wanted}"
    return None


def read_back(program, folder):
    """`asm` does not read what `annotate` writes, and does once comments, the spaces before them and empty lines are
    taken away."""
    text = text_of(asked(program, folder, "annotate", KERNEL))
    (folder / "whole").write_text(text, encoding="utf-8")
    (folder / "less").write_text("".join(f"{line}\n" for line in shown_of(text)), encoding="utf-8")
    whole = asked(program, folder, "asm", "--out", "made", "whole")
    done = asked(program, folder, "asm", "--out", "made", "less")
    fine = whole.out.startswith(b"fault S") and whole.status == 1 and done == Answer(b"", b"", 0)
    return None if fine and (folder / "made").read_bytes() == KERNEL.read_bytes() else f"  {whole}, {done}"


def checks():
    """All of these."""
    found = [
        ("modules beside the second reading", modules_read, ()),
        ("modules of --opencl beside the second reading", modules_of_opencl_read, ()),
        ("cases without comments", cases_read, ()),
        ("all that comments say", noted, ("khronos",)),
        ("names of ids that are used several times", names_once, ()),
        ("names of OpenCL.std", names_of_opencl, ("khronos",)),
        ("no such function", no_such_function, ()),
        ("a function by its name", by_name, ()),
        ("colours", coloured, ()),
        ("colours by place", colours_by_place, ()),
        ("the standard input", of_standard_input, ()),
        ("read back", read_back, ()),
    ]
    return [Check(f"annotate: {name}", LAYERS, run_it, frozenset(tools)) for name, run_it, tools in found]
