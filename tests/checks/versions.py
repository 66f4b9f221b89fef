"""Modules of other versions: `--as-1.6` answers what is answered of the same bytes with the version word replaced, and
`--opencl` takes versions 1.0 to 1.6, each as it is."""

import struct
import tempfile
from pathlib import Path

from .cases import all_cases, laid_out
from .common import LAYERS as ALL_LAYERS
from .common import TESTS, Answer, Check, difference, joined, run
from .khronos import GRAMMAR as KHRONOS
from .many import lines, placed
from .tools import translator_of_clang
from .usage import BAD_USE, GRAMMAR, KERNEL, MODULES, TEXT, under

LAYERS = frozenset(ALL_LAYERS)
FLAG = "--as-1.6"
OPENCL = "--opencl"
ORDERS = {"little": "<I", "big": ">I"}
MAGIC = 0x07230203
WANTED = 0x00010600
THERE_ARE = [0x00010000 + 0x100 * minor for minor in range(6)]
THERE_ARE_NOT = [0, 1, 6, 0x00000600, 0x00010601, 0x00010001, 0x00010401, 0x00010700, 0x0001FF00, 0x00020000]
THERE_ARE_NOT += [0x00020600, 0x01010600, 0x01010400, 0x80010600, 0x00060100, 0x00000106, 0xFFFFFFFF]
VERSION_FAULT = b"fault W5\n"
# What `trace` says of a module without the function.
NO_FUNCTION = b"error X1\n"
COMMANDS = ("check", "explain", "show", "annotate", "graph", "trace")
EXAMPLES = ("smallest-kernel", "smallest-kernel-big-order", "value-missing-on-one-branch", "call-of-a-later-function")
REAL = TESTS / "real"
# How many modules the kernels there are, at both levels.
KERNELS = 22


def order_of(content):
    """The byte order of a module, or None where its magic number is in neither."""
    return next((name for name, form in ORDERS.items() if struct.pack(form, MAGIC) == content[:4]), None)


def of_version(content, version):
    """The bytes with this version word; those without a good magic number and a whole second word as they are."""
    order = order_of(content)
    if order is None or len(content) < 8:
        return content
    return content[:4] + struct.pack(ORDERS[order], version) + content[8:]


def turned(content):
    """The same words in the other byte order."""
    return b"".join(content[at : at + 4][::-1] for at in range(0, len(content), 4))


def words_of(command, *files):
    """The words of a command, with numbers that fit it."""
    return [command, *(["--function", 10, "--limit", 99, "--choices", "0"] if command == "trace" else []), *files]


def as_replaced(content, wanted_of, program, folder, command, version):
    """None if a command with the flag says of the bytes with a version what it says of others without the flag."""
    path = folder / "module.spv"
    path.write_bytes(wanted_of)
    wanted = run(program, words_of(command, path), folder, env=under(GRAMMAR))
    path.write_bytes(of_version(content, version))
    words = [*words_of(command), FLAG, path]
    wrong = difference(wanted, run(program, words, folder, env=under(GRAMMAR)))
    return wrong and f"  {command}, version {version:#010x}, {content[:24].hex()}\n{wrong}"


def examples():
    """The bytes of some modules, in both byte orders."""
    for name in EXAMPLES:
        content = (MODULES / f"{name}.spv").read_bytes()
        yield content
        yield turned(content)


def each_version(program, folder):
    """Versions 1.0 to 1.6, of each command and in both byte orders."""
    for content in examples():
        for command in COMMANDS:
            for version in [*THERE_ARE, WANTED]:
                wrong = as_replaced(content, of_version(content, WANTED), program, folder, command, version)
                if wrong:
                    return wrong
    return None


def no_versions(program, folder):
    """Versions that there are not stay W5, with the flag as without it."""
    for content in examples():
        for command in COMMANDS:
            for version in THERE_ARE_NOT:
                changed = of_version(content, version)
                wrong = as_replaced(content, changed, program, folder, command, version)
                if wrong:
                    return wrong
                got = run(program, words_of(command, folder / "module.spv"), folder, env=under(GRAMMAR))
                if not got.out.startswith(VERSION_FAULT) or (got.err, got.status) != (b"", 1):
                    return f"  {command}, version {version:#010x}: {got}"
    return None


def never_by_default(program, folder):
    """Without the flag each version but 1.6 is W5."""
    for content in examples():
        for version in THERE_ARE:
            path = folder / "module.spv"
            path.write_bytes(of_version(content, version))
            for command in COMMANDS:
                got = run(program, words_of(command, path), folder, env=under(GRAMMAR))
                if not got.out.startswith(VERSION_FAULT) or (got.err, got.status) != (b"", 1):
                    return f"  {command}, version {version:#010x}: {got}"
    return None


def every_module(command):
    """The check that a command with the flag says of every module in version 1.3 what it says of the module in 1.6."""

    def check(program, folder):
        contents = {path.name: path.read_bytes() for path in sorted(MODULES.glob("*.spv"))}
        for version, content_of in ((WANTED, lambda it: of_version(it, WANTED)), (0x00010300, None)):
            place = folder / f"{version:x}"
            place.mkdir()
            for name, content in contents.items():
                (place / name).write_bytes(content_of(content) if content_of else of_version(content, version))
        answers = [
            run(program, [command, *words, *contents], folder / f"{version:x}", env=under(GRAMMAR))
            for version, words in ((WANTED, []), (0x00010300, [FLAG]))
        ]
        return difference(*answers)

    return check


def cut_and_spoiled(program, folder):
    """Bytes that are cut, and headers with another fault: as the same bytes with the version word replaced."""
    kernel = KERNEL.read_bytes()
    contents = [kernel[:size] for size in range(0, 29)] + [kernel + b"\0" * more for more in range(1, 5)]
    for at in (0, 3, 8, 12, 13, 16, 19):
        contents.append(kernel[:at] + b"\xff" + kernel[at + 1 :])
    for content in [*contents, *map(turned, contents)]:
        for command in ("check", "explain", "show"):
            wrong = as_replaced(content, of_version(content, WANTED), program, folder, command, 0x00010400)
            if wrong:
                return wrong
    return None


def of_several_files(program, folder):
    """The flag is for all files of a run, which may be of several versions, and for the standard input."""
    kernel = KERNEL.read_bytes()
    names = placed(folder, a=of_version(kernel, 0x00010000), b=kernel, c=of_version(kernel, 0x00010700), d=b"123")
    verdicts = ["a.spv: valid", "b.spv: valid", "c.spv: fault W5", "d.spv: fault W2"]
    got = run(program, ["check", FLAG, *names], folder, env=under(GRAMMAR))
    wrong = difference(Answer(lines(*verdicts), b"", 1), got)
    verdicts[0] = "a.spv: fault W5"
    got = run(program, ["check", *names], folder, env=under(GRAMMAR))
    wrong = wrong or difference(Answer(lines(*verdicts), b"", 1), got)
    with (folder / "a.spv").open("rb") as file:
        got = run(program, ["check", FLAG, "-"], folder, env=under(GRAMMAR), stdin=file)
    return wrong or difference(Answer(b"valid\n", b"", 0), got)


def shown_as_1_6(program, folder):
    """What `show` writes with the flag has the version 1.6, and assembles to the bytes with the word replaced."""
    for content in examples():
        path, text, made = folder / "module.spv", folder / "text", folder / "made.spv"
        path.write_bytes(of_version(content, 0x00010200))
        got = run(program, ["show", FLAG, path], folder, env=under(GRAMMAR))
        if b"\n; Version: 1.6\n" not in got.out:
            return f"  {got}"
        text.write_bytes(got.out)
        big = ["--big"] if order_of(content) == "big" else []
        run(program, ["asm", *big, "--out", made, text], folder, env=under(GRAMMAR))
        if made.read_bytes() != of_version(content, WANTED):
            return "  the text gives other bytes"
    return None


def each_as_it_is(program, folder):
    """With `--opencl` versions 1.0 to 1.6 are taken: a text gives the version of its module, and gives the same bytes
    again; other versions are W5 as ever."""
    path, text, made = folder / "module.spv", folder / "text", folder / "made.spv"
    for content in examples():
        big = ["--big"] if order_of(content) == "big" else []
        for version in [*THERE_ARE, WANTED]:
            path.write_bytes(of_version(content, version))
            told = f"; Version: 1.{version >> 8 & 0xff}\n".encode()
            for command in COMMANDS:
                got = run(program, [*words_of(command), OPENCL, path], folder, env=under(GRAMMAR))
                if got.out.startswith(VERSION_FAULT) or got.err not in (b"", NO_FUNCTION):
                    return f"  {command}, version {version:#010x}: {got}"
                if command in ("show", "annotate") and got.out.count(told) != 1:
                    return f"  {command}, version {version:#010x}: {got}"
            text.write_bytes(run(program, ["show", OPENCL, path], folder, env=under(GRAMMAR)).out)
            wrong = difference(
                Answer(b"", b"", 0),
                run(program, ["asm", OPENCL, *big, "--out", made, text], folder, env=under(GRAMMAR)),
            )
            if wrong or made.read_bytes() != path.read_bytes():
                return wrong or f"  version {version:#010x}: the text gives other bytes"
            got = run(program, ["asm", "--out", made, text], folder, env=under(GRAMMAR))
            if (got.status == 0) != (version == WANTED):
                return f"  asm without the option, version {version:#010x}: {got}"
        for version in THERE_ARE_NOT:
            path.write_bytes(of_version(content, version))
            for command in COMMANDS:
                got = run(program, [*words_of(command), OPENCL, path], folder, env=under(GRAMMAR))
                if not got.out.startswith(VERSION_FAULT) or (got.err, got.status) != (b"", 1):
                    return f"  {command}, version {version:#010x}: {got}"
    return None


def not_both(program, folder):
    """`--as-1.6` and `--opencl` say different things of a version; `--extended` and `--opencl` go together."""
    for command in COMMANDS:
        wrong = difference(BAD_USE, run(program, [*words_of(command), FLAG, OPENCL, KERNEL], folder, env=under(GRAMMAR)))
        if wrong:
            return f"  {command}\n{wrong}"
    for command in ("check", "explain"):
        got = run(program, [command, "--extended", OPENCL, KERNEL], folder, env=under(GRAMMAR))
        wrong = difference(Answer(b"valid\n", b"", 0), got)
        if wrong:
            return f"  {command}\n{wrong}"
    return None


def of_no_other_command(program, folder):
    """A command that takes no module has no such flag, which stands once and has no value."""
    (folder / "b").write_bytes(TEXT.read_bytes())
    rows = [
        ["asm", FLAG, "--out", "made", "b"],
        ["rules", FLAG],
        ["grammar", FLAG],
        ["rules", OPENCL],
        ["grammar", OPENCL],
        ["check", OPENCL, OPENCL, KERNEL],
        ["check", FLAG, FLAG, KERNEL],
        ["check", f"{FLAG}=1", KERNEL],
        ["check", "--as-1.5", KERNEL],
        ["check", "--as", KERNEL],
    ]
    for words in rows:
        wrong = difference(BAD_USE, run(program, words, folder, env=under(GRAMMAR)))
        if wrong:
            return f"  {words}\n{wrong}"
    return None if not (folder / "made").exists() else "  OUT was made"


def every_case(program, folder):
    """Each case of a module of version 1.6: the flag changes nothing of its answer."""
    count = 0
    for case in all_cases():
        words = case.one("run").split(" ")
        is_read = words[0] in COMMANDS and OPENCL not in words and (case.all("F") or case.all("text"))
        if not is_read or case.one("exit") == "2":
            continue
        with tempfile.TemporaryDirectory(dir=folder) as name:
            place = Path(name)
            words = laid_out(case, place)
            if (place / "F").stat().st_size > 1_000_000:
                continue
            content = (place / "F").read_bytes()
            if order_of(content) and content[4:8] != of_version(content, WANTED)[4:8]:
                continue
            answers = [run(program, [words[0], *flag, *words[1:]], place, env=under()) for flag in ([], [FLAG])]
        wrong = difference(*answers)
        if wrong:
            return f"  {case.one('case')}\n{wrong}"
        count += 1
    return None if count > 300 else f"  {count} cases"


# Modules as a compiler writes them.


def compiled(source, level, folder):
    """The module of an OpenCL C file, as the translator writes it."""
    bitcode, made = folder / "kernel.bc", folder / f"{source.stem}-{level}.spv"
    options = ["-target", "spir64", "-cl-std=CL2.0", "-Xclang", "-finclude-default-header", "-w", f"-{level}"]
    compiling = ["clang", *options, "-emit-llvm", "-c", source, "-o", bitcode]
    for words in compiling, [translator_of_clang(), bitcode, "-o", made]:
        said, status = joined(words, folder)
        if status != 0:
            raise OSError(f"{words[0]}: {said.decode(errors='replace')}")
    return made


def real_kernels(program, folder):
    """The modules of tests/real, as llvm-spirv writes them, with the flag: valid, with the operands of extended
    instructions too, and as with the version replaced."""
    made = [compiled(it, level, folder) for it in sorted(REAL.glob("*.cl")) for level in ("O0", "O2")]
    names = [it.name for it in made]
    older = [it for it in made if it.read_bytes()[4:8] != struct.pack("<I", WANTED)]
    if len(made) != KERNELS or not older:
        return f"  {len(made)} modules, {len(older)} of them not of version 1.6"
    place = folder / "replaced"
    place.mkdir()
    for path in made:
        (place / path.name).write_bytes(of_version(path.read_bytes(), WANTED))
    wanted = Answer(lines(*(f"{name}: valid" for name in names)), b"", 0)
    for grammar in ([], ["--grammar", KHRONOS]):
        for more in ([], ["--extended"]):
            wrong = difference(wanted, run(program, ["check", *grammar, *more, FLAG, *names], folder, env=under()))
            wrong = wrong or difference(wanted, run(program, ["check", *grammar, *more, *names], place, env=under()))
            if wrong:
                return wrong
    for name in names:
        got = [run(program, ["show", *it, name], at, env=under()) for it, at in (([FLAG], folder), ([], place))]
        wrong = difference(*got)
        if wrong:
            return f"  show {name}\n{wrong}"
    wanted = Answer(lines(*(f"{it.name}: fault W5" for it in older)), b"", 1)
    return difference(wanted, run(program, ["check", "-H", *(it.name for it in older)], folder, env=under()))


def checks():
    """All of these."""
    found = [
        ("each version", each_version),
        ("versions that there are not", no_versions),
        ("never by default", never_by_default),
        ("every verdict", every_module("check")),
        ("every explanation", every_module("explain")),
        ("cut and spoiled", cut_and_spoiled),
        ("several files", of_several_files),
        ("shown", shown_as_1_6),
        ("each as it is", each_as_it_is),
        ("not both", not_both),
        ("of no other command", of_no_other_command),
        ("every case", every_case),
    ]
    tools = frozenset({"khronos", "llvm-spirv"})
    return [
        *(Check(f"another version: {name}", LAYERS, run_it) for name, run_it in found),
        Check("another version: real kernels", LAYERS, real_kernels, tools),
    ]
