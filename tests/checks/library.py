"""The library for C as a program meets it: callers in C99 and C++17, memory, threads, the cases, its installation.

The sources are in tests/library. The archive and the shared library are those of `make`, in out/.
"""

import json
import os
import re
import shlex
import shutil
import subprocess
import sys
import tempfile
from pathlib import Path

from .cases import all_cases, laid_out, run_case
from .common import TESTS, Check, difference, joined, layers_of, layers_that_stand, run
from .refused import compiler

TOP = TESTS.parent
SOURCES = TESTS / "library"
HEADER = TOP / "include/spvk.h"
PAGE = TOP / "docs/spvk.3"
ARCHIVE = TOP / "out/libspvk.a"
OBJECT = TOP / "out/spvk.o"
MAP = TOP / "install/spvk.map"
PROFILE = TESTS / "profile.json"
KERNEL = TESTS / "modules/smallest-kernel.spv"
# A module that is refused with `--extended` alone.
INSIDE = TESTS / "modules/inside-of-an-extended-instruction.spv"
STRICT = ("-Wall", "-Wextra", "-Wpedantic", "-Werror", "-O2", f"-I{TOP / 'include'}")
SANITIZED = ("-g", "-fsanitize=address,undefined", "-fno-sanitize-recover=all")
WRAPPED = ("-Wl,--wrap=malloc,--wrap=realloc,--wrap=free",)
MEMORY = ("valgrind", "-q", "--error-exitcode=9", "--leak-check=full", "--show-leak-kinds=all")
# The letters of the codes that a verdict may have; `spv rules` has those of errors too.
# The letters of codes, each at the place of its hundred, and those of verdicts among them.
LETTERS = "WIPLDYCMEFAGSO"
VERDICTS = LETTERS.replace("S", "")
CHECKS = 100_000
SECONDS = 300
INSTALLED = """
    bin/spv include/spvk.h lib/libspvk.a lib/libspvk.so lib/libspvk.so.{major} lib/libspvk.so.{version}
    lib/pkgconfig/spvk.pc lib/cmake/spvk/spvkConfig.cmake lib/cmake/spvk/spvkConfigVersion.cmake
    share/man/man1/spv.1 share/man/man3/spvk.3 share/bash-completion/completions/spv
    share/zsh/site-functions/_spv share/fish/vendor_completions.d/spv.fish
"""
# Where the pages are installed.
PAGES = "share/doc/spv"
# What README's words for installing need of the repository, beside what is built.
SOURCES_OF_INSTALL = """
    crates.txt HANDLES Makefile build include install docs completions bindings
    README.md SECURITY.md CONTRIBUTING.md CHANGELOG.md NOTICE LICENSE-MIT LICENSE-APACHE tests/README.md
"""


class Wrong(Exception):
    """What a check found wrong."""


def version():
    """The version that the header has."""
    return re.search(r'#define SPVK_VERSION "(.*)"', HEADER.read_text(encoding="utf-8"))[1]


def shared():
    """The shared library."""
    return TOP / f"out/libspvk.so.{version()}"


def cpp():
    """A C++ compiler, or None."""
    return next(filter(None, map(shutil.which, ("g++", "c++", "clang++"))), None)


def done(words, folder, **environment):
    """What the command printed; raises Wrong where it failed."""
    under = {**os.environ, **{name: str(value) for name, value in environment.items()}}
    printed, status = joined(words, folder, SECONDS, env=under)
    said = printed.decode(errors="replace")
    if status != 0:
        raise Wrong(f"  {shlex.join(map(str, words))[:300]}: exit {status}\n{said[-2000:]}")
    return said


def built(folder, name, compile_by=(), flags=()):
    """The program of a C source of this folder, linked with the archive."""
    made = folder / name
    words = compile_by or (compiler(), "-std=c99")
    done([*words, *STRICT, *flags, "-o", made, SOURCES / f"{name}.c", "-x", "none", ARCHIVE], folder)
    return made


def call_words(program, folder):
    """The words of `calls`: the files that it reads, and what the program says of them."""
    kernel = KERNEL.read_bytes()
    cut, lines, text = folder / "cut.spv", folder / "lines", folder / "text"
    cut.write_bytes(kernel[:-4])
    lines.write_bytes(run(program, ["explain", "--grammar", PROFILE, cut], folder).out)
    text.write_bytes(run(program, ["show", "--grammar", PROFILE, KERNEL], folder).out)
    return [PROFILE, KERNEL, lines, text]


def callers(program, folder):
    """Each call with good and bad arguments, from C99 and from C++17, against the archive and the shared library."""
    words = call_words(program, folder)
    done([built(folder, "calls"), *words], folder)
    done([built(folder, "calls", (cpp(), "-x", "c++", "-std=c++17")), *words], folder)
    made = folder / "shared"
    done([compiler(), "-std=c99", *STRICT, "-o", made, SOURCES / "calls.c", shared()], folder)
    done([made, *words], folder, LD_LIBRARY_PATH=with_links(folder))


def with_links(folder):
    """A folder in which the shared library has the name by which programs look for it."""
    place = folder / "links"
    place.mkdir()
    (place / f"libspvk.so.{version().split('.')[0]}").symlink_to(shared())
    return place


def under_valgrind(program, folder):
    """The calls under valgrind: no error, and nothing lost."""
    words = [built(folder, "calls"), *call_words(program, folder)]
    done([*MEMORY, "--errors-for-leak-kinds=all", *words], folder)


def sanitized(program, folder):
    """The calls with address and undefined behaviour sanitizers."""
    words = call_words(program, folder)
    for compile_by in (("clang", "-std=c99"), ("clang++", "-x", "c++", "-std=c++17")):
        done([built(folder, "calls", compile_by, SANITIZED), *words], folder)


def each_refused(_program, folder):
    """Each growth of memory of each call refused in turn."""
    done([built(folder, "refuse", flags=WRAPPED), PROFILE, KERNEL], folder)


def threaded_modules():
    """Some modules for the threads: valid ones, and with faults of all stages."""
    return sorted((TESTS / "modules").glob("*.spv"))[::7][:60]


def threads(_program, folder):
    """Eight threads, one grammar."""
    made = built(folder, "threads", flags=("-pthread",))
    done([made, PROFILE, CHECKS, *threaded_modules()], folder)


def threads_watched(_program, folder):
    """The same with fewer calls, and valgrind looking for places that two threads use unordered."""
    made = built(folder, "threads", flags=("-pthread",))
    words = ["valgrind", "-q", "--tool=helgrind", "--error-exitcode=9"]
    done([*words, made, PROFILE, 400, *threaded_modules()[:8]], folder)


def has_call(case):
    """Whether the library has a call for the run of a case."""
    is_there = layers_of(case.one("layer")) <= layers_that_stand()
    form = r"((check|explain)( --extended)? --grammar G|show --grammar G|asm --grammar G --out O( --big)?) F"
    return is_there and re.fullmatch(form, case.one("run"))


def chosen_cases():
    """The cases for whose run the library has a call."""
    return [case for case in all_cases() if has_call(case)]


def every_case(_program, folder):
    """Every case: the library's answer is the one that the case wants of the program."""
    made = built(folder, "program")
    for case in chosen_cases():
        with tempfile.TemporaryDirectory(dir=folder) as place:
            wrong = run_case(case, made, Path(place))
        if wrong is not None:
            raise Wrong(f"  {case.one('case')}\n{wrong}")


def every_explanation(program, folder):
    """Every module of the cases explained: the library's lines are the program's."""
    made = built(folder, "program")
    for case in chosen_cases():
        with tempfile.TemporaryDirectory(dir=folder) as place:
            words = ["explain", *laid_out(case, Path(place))[1:]]
            if case.one("run").startswith("asm") or not Path(words[-1]).exists():
                continue
            wrong = difference(*(run(it, words, Path(place)) for it in (program, made)))
        if wrong is not None:
            raise Wrong(f"  {case.one('case')}\n{wrong}")


def without_file(line):
    """A JSON object without its member `file`."""
    return {name: value for name, value in json.loads(line).items() if name != "file"}


def every_object(program, folder):
    """Every module of the cases explained as JSON: the library's object is the program's, without the file's name."""
    made = built(folder, "program")
    for case in chosen_cases():
        with tempfile.TemporaryDirectory(dir=folder) as place:
            words = ["explain", "--json", *laid_out(case, Path(place))[1:]]
            if case.one("run").startswith("asm") or not Path(words[-1]).exists():
                continue
            own, told = (run(it, words, Path(place)) for it in (made, program))
        if (own.status, own.err) != (told.status, told.err):
            raise Wrong(f"  {case.one('case')}\n{own}\n{told}")
        if told.status < 2 and (b'"file"' in own.out or json.loads(own.out) != without_file(told.out)):
            raise Wrong(f"  {case.one('case')}\n{own}\n{told}")


def every_rule(program, folder):
    """Every code of a verdict: its name and its sentence are those of `spv rules`."""
    got = run(built(folder, "program"), ["rules"], folder).out.decode().splitlines()
    said = run(program, ["rules"], folder).out.decode()
    wanted = re.findall(rf"^[{VERDICTS}]\d+: .*$", said, re.MULTILINE)
    if sorted(got) != sorted(wanted) or not got:
        raise Wrong(f"  in one only: {sorted(set(got) ^ set(wanted))}")


def instructions(_program, folder):
    """The processor's instructions of one check of a kernel, beside those kept in bench/counts."""
    done([TOP / "bench/library", "--count"], folder)


def expect_example(words, folder, where):
    """Raises Wrong where an example does not tell the kernel valid, calls a module valid whose extended instruction is
    not sound, or tells a missing file in more than one line."""
    for more in ([], ["--grammar", PROFILE]):
        said = done([*words, *more, KERNEL], folder, **where)
        if said != f"{KERNEL}: valid\n":
            raise Wrong(f"  {words}: {said}")
    under = {**os.environ, **{name: str(it) for name, it in where.items()}}
    looked, status = joined([*words, INSIDE], folder, SECONDS, env=under)
    if status != 1 or not looked.startswith(f"{INSIDE}: fault ".encode()):
        raise Wrong(f"  {words}: {looked.decode()}, exit {status}")
    for more in ([], ["missing"], ["--grammar", "missing", KERNEL], ["--grammar"]):
        ended = subprocess.run([*map(str, words), *map(str, more)], stdout=subprocess.PIPE, stderr=subprocess.PIPE,
                               cwd=folder, env=under, timeout=SECONDS, check=False)
        if ended.returncode != 2 or ended.stdout or ended.stderr.count(b"\n") != 1:
            raise Wrong(f"  {words} {more}: {ended}")


def in_rust(_program, folder):
    """The tests of bindings/rust, and its example."""
    where = {"SPVK_LIB_DIR": ARCHIVE.parent, "CARGO_TARGET_DIR": folder}
    words = ["--offline", "--locked", "--manifest-path", TOP / "bindings/rust/Cargo.toml"]
    done(["cargo", "test", *words], folder, **where)
    expect_example(["cargo", "run", "-q", *words, "--example", "check", "--"], folder, where)


def expect_first_words(folder, where):
    """Raises Wrong where the lines at the head of the module for Python do not load the kernel, or load a module whose
    extended instruction is not sound."""
    head = (TOP / "bindings/python/spvk.py").read_text(encoding="utf-8").split('"""')[1]
    lines = "".join(f"{line[4:]}\n" for line in head.splitlines() if line.startswith("    "))
    (folder / "first.py").write_text(f"load = lambda module: print('loaded')\n{lines}", encoding="utf-8")
    for module, wanted in ((KERNEL, "loaded\n"), (INSIDE, "fault ")):
        shutil.copy(module, folder / "kernel.spv")
        said = done([sys.executable, "first.py"], folder, **where)
        if not said.startswith(wanted):
            raise Wrong(f"  the lines at the head of spvk.py, of {module}: {said}")


def in_python(_program, folder):
    """The tests of bindings/python, and its example."""
    place = TOP / "bindings/python"
    where = {"SPVK_LIBRARY": shared(), "PYTHONPATH": place, "PYTHONDONTWRITEBYTECODE": 1}
    done([sys.executable, "-m", "unittest", "discover", place / "tests"], folder, **where)
    expect_example([sys.executable, place / "examples/check.py"], folder, where)
    expect_first_words(folder, where)


def without_its_library(_program, folder):
    """Where the module for Python finds no library, it says which variable names one; where that names none, so too."""
    (folder / "spvk.py").write_bytes((TOP / "bindings/python/spvk.py").read_bytes())
    lacks = rb"OSError: the shared library libspvk\.so\.1 is not loaded \(.*\): SPVK_LIBRARY .* may name its file"
    refuses = rb"OSError: the file that SPVK_LIBRARY names in the environment is not loaded \(.*\)"
    for named, wanted in (("", lacks), (KERNEL, refuses)):
        # (one that is installed on this machine is not found)
        here = "import ctypes; load = ctypes.CDLL; ctypes.CDLL = lambda it: load(it if '/' in it else './' + it)"
        words = [sys.executable, "-B", "-c", f"{here}; import spvk"]
        said, status = joined(words, folder, SECONDS, env={**os.environ, "SPVK_LIBRARY": str(named)})
        if status != 1 or not re.fullmatch(wanted, said.splitlines()[-1]):
            raise Wrong(f"  {said.decode()}, exit {status}")


def make(*words):
    """Runs make at the top."""
    return done(["make", "--no-print-directory", *words], TOP)


def files_below(folder):
    """The names of all files and links below a folder."""
    return {str(path.relative_to(folder)) for path in folder.rglob("*") if path.is_symlink() or path.is_file()}


def links_of(page):
    """The files that a page links, by their paths."""
    # (what stands in code is no link)
    code = r"(?ms)^```.*?^```$|^    [^\n]*$|`[^`\n]*`"
    text = re.sub(code, "", page.read_text(encoding="utf-8"))
    targets = re.findall(r"\]\(([^()#]+)(?:#[^()]*)?\)", text)
    return {Path(os.path.normpath(page.parent / it)) for it in targets if not re.match(r"[a-z]+:", it)}


def lost_links(folder):
    """The links of pages below a folder that lead to nothing, each with its page."""
    pages = sorted(folder.rglob("*.md"))
    return [f"{page.relative_to(folder)}: {it}" for page in pages for it in sorted(links_of(page)) if not it.is_file()]


def pages_of_readme():
    """README and the files that it links, by their names in the repository, but for the man page."""
    page = TOP / "README.md"
    files = {page, *(it for it in links_of(page) if it.is_file() and not re.fullmatch(r"\.\d", it.suffix))}
    return {str(it.relative_to(TOP)) for it in files}


def expect_pages(folder):
    """Raises Wrong where a page that README links is not among those in a folder, or one of these links what is not."""
    missing, lost = sorted(pages_of_readme() - files_below(folder)), lost_links(folder)
    if missing or lost:
        raise Wrong(f"  pages that are not there: {', '.join(missing)}; links that lead nowhere: {', '.join(lost)}")


def installed(_program, folder):
    """An installation into an empty folder has its files, runs, and is taken away whole."""
    words = [f"DESTDIR={folder}", "PREFIX=/usr"]
    make("install", *words)
    wanted = set(INSTALLED.format(version=version(), major=version().split(".")[0]).split())
    expect_pages(folder / "usr" / PAGES)
    wanted |= {f"{PAGES}/{it}" for it in files_below(folder / "usr" / PAGES) if (TOP / it).is_file()}
    got = files_below(folder / "usr")
    if got != wanted or files_below(folder) != {f"usr/{name}" for name in wanted}:
        raise Wrong(f"  installed besides or not: {', '.join(sorted(got ^ wanted))}")
    done([folder / "usr/bin/spv", "--help"], folder)
    make("uninstall", *words)
    if files_below(folder) or (folder / "usr" / PAGES).exists():
        raise Wrong(f"  left behind: {', '.join(sorted(files_below(folder)))}")


def example():
    """The C program that the man page has."""
    text = PAGE.read_text(encoding="utf-8").split(".SH EXAMPLES", 1)[1]
    return re.search(r"^\.EX\n(.*?)^\.EE", text, re.MULTILINE | re.DOTALL)[1].replace("\\e", "\\")


def expect_answers(program, folder, **environment):
    """Raises Wrong where the man page's program does not tell the kernel valid, and the kernel cut, or a module whose
    extended instruction is not sound, to be none."""
    cut = folder / "cut.spv"
    cut.write_bytes(KERNEL.read_bytes()[:-4])
    said = done([program, KERNEL], folder, **environment)
    told = [joined([program, file], folder, SECONDS, env={**os.environ, **environment}) for file in (cut, INSIDE)]
    if said or [status for _, status in told] != [1, 1] or not told[0][0].startswith(b"L2: "):
        raise Wrong(f"  {program}: {said!r}, and then {told}")


def found_by_pkg_config(_program, folder):
    """The man page's program, built against an installation by pkg-config, with the shared library and the archive."""
    make("install", f"PREFIX={folder}")
    (folder / "check.c").write_text(example(), encoding="utf-8")
    asked = ["pkg-config", "--cflags", "--libs", "spvk"]
    flags = done(asked, folder, PKG_CONFIG_PATH=folder / "lib/pkgconfig").split()
    told_version = done(["pkg-config", "--modversion", "spvk"], folder, PKG_CONFIG_PATH=folder / "lib/pkgconfig")
    if told_version.strip() != version():
        raise Wrong("  pkg-config tells another version")
    strict = [it for it in STRICT if not it.startswith("-I")]
    done([compiler(), *strict, "-o", "shared", "check.c", *flags], folder)
    expect_answers(folder / "shared", folder, LD_LIBRARY_PATH=str(folder / "lib"))
    archive = [it if it != "-lspvk" else "-l:libspvk.a" for it in flags]
    done([compiler(), *strict, "-o", "archive", "check.c", *archive], folder)
    expect_answers(folder / "archive", folder)


def found_by_cmake(_program, folder):
    """The man page's program, built against an installation by CMake."""
    make("install", f"PREFIX={folder / 'prefix'}")
    (folder / "check.c").write_text(example(), encoding="utf-8")
    shutil.copy(SOURCES / "CMakeLists.txt", folder)
    done(["cmake", "-S", ".", "-B", "made", f"-DCMAKE_PREFIX_PATH={folder / 'prefix'}"], folder)
    done(["cmake", "--build", "made"], folder)
    for name in ("shared", "archive"):
        expect_answers(folder / "made" / name, folder)


def blocks(title):
    """The lines of commands that README.md has under a title."""
    text = (TOP / "README.md").read_text(encoding="utf-8").split(f"\n## {title}\n", 1)[1].split("\n## ", 1)[0]
    return "".join(re.findall(r"^    (.*\n)", text, re.MULTILINE))


def by_readme(_program, folder):
    """README's words for installing, run as they stand in a copy in which all is built."""
    top, home = folder / "spv", folder / "home"
    home.mkdir()
    top.mkdir()
    for name in SOURCES_OF_INSTALL.split():
        (top / name).parent.mkdir(exist_ok=True)
        (shutil.copytree if (TOP / name).is_dir() else shutil.copy)(TOP / name, top / name)
    for name in ("crates/spv/out/spv", *(it.relative_to(TOP) for it in (ARCHIVE, OBJECT, shared()))):
        (top / name).parent.mkdir(parents=True, exist_ok=True)
        shutil.copy(TOP / name, top / name)
    (top / "check.c").write_text(example(), encoding="utf-8")
    for name, file in (("grammar.json", PROFILE), ("kernel.spv", KERNEL)):
        shutil.copy(file, top / name)
    said = done(["sh", "-euc", blocks("Install")], top, HOME=home, PYTHONDONTWRITEBYTECODE=1)
    if not said.endswith("kernel.spv: valid\n") or not (home / ".local/lib/libspvk.a").is_file():
        raise Wrong(f"  printed:\n{said}")


def header_calls():
    """The calls of the header that C programs make, and those of the archive."""
    header = HEADER.read_text(encoding="utf-8")
    made = set(re.findall(r"^static inline .*?\b(spvk_\w+)\(", header, re.MULTILINE))
    raw = set(re.findall(r"^(?:\w+ )+\**(spvk_raw_\w+)\(", header, re.MULTILINE))
    return made - {"spvk_some_bytes", "spvk_shown_by", "spvk_told_by"}, raw


def fields_of(text):
    """The structures that a text declares, each with its fields and their types, as C has them."""
    found = re.findall(r"^typedef struct (\w+) \{\n(.*?)^\} \1;$", text, re.MULTILINE | re.DOTALL)
    return {name: re.findall(r"^ +(\w[^;]*);", fields, re.MULTILINE) for name, fields in found}


def shown_page(_program, folder):
    """The man page is shown without warnings, and names the calls, the statuses and the fields that the header has."""
    ended = subprocess.run(["man", "--warnings", "-E", "UTF-8", "-l", str(PAGE)], stdout=subprocess.PIPE,
                           stderr=subprocess.PIPE, cwd=folder, timeout=SECONDS, check=False)
    if ended.returncode != 0 or ended.stderr:
        raise Wrong(f"  {ended.stderr.decode()}")
    header, page = HEADER.read_text(encoding="utf-8"), PAGE.read_text(encoding="utf-8")
    calls, _ = header_calls()
    named = set(re.findall(r"\b(spvk_\w+)\(", page.split(".SH DESCRIPTION")[0]))
    if calls != named:
        raise Wrong(f"  not in both: {', '.join(sorted(calls ^ named))}")
    listed = re.search(r"enum spvk_status \{(.*?)\}", header, re.DOTALL)[1]
    statuses = re.findall(r"^    (SPVK_\w+) = ", listed, re.MULTILINE)
    lacking = [it for it in statuses if it not in page and not re.fullmatch(r"SPVK_J[2-6]", it)]
    if lacking:
        raise Wrong(f"  the page does not name {', '.join(lacking)}")
    types = page.split(".SS Types", 1)[1].split("\n.SH ", 1)[0]
    named, listed = fields_of(types), fields_of(header)
    wrong = [name for name in re.findall(r"^\.B (spvk_\w+)$", types, re.MULTILINE) if named.get(name) != listed[name]]
    if wrong or not named:
        raise Wrong(f"  the page has no fields, or others, of {', '.join(wrong) or 'all structures'}")


def one_version(_program, _folder):
    """The header, the man page and the bindings have one version."""
    found = {
        "docs/spvk.3": rf'"spvk {re.escape(version())}"',
        "bindings/python/spvk.py": rf'^__version__ = "{re.escape(version())}"$',
        "bindings/rust/Cargo.toml": rf'^version = "{re.escape(version())}"$',
        "bindings/rust/Cargo.lock": rf'^version = "{re.escape(version())}"$',
    }
    for name, pattern in found.items():
        if not re.search(pattern, (TOP / name).read_text(encoding="utf-8"), re.MULTILINE):
            raise Wrong(f"  {name} has another version than {version()}")


def codes_of_header(program, folder):
    """The header has each code of a verdict that `spv rules` lists, by its number, and no other."""
    said = run(program, ["rules"], folder).out.decode()
    codes = re.findall(rf"^([{VERDICTS}]\d+): ", said, re.MULTILINE)
    numbers = {f"SPVK_{code}": 100 * LETTERS.index(code[0]) + int(code[1:]) for code in codes}
    listed = re.search(r"enum spvk_code \{(.*?)\}", HEADER.read_text(encoding="utf-8"), re.DOTALL)[1]
    found = {name: int(number) for name, number in re.findall(r"\b(SPVK_\w+) = (\d+)", listed)}
    wrong = set(found.items()) ^ {("SPVK_VALID", 0), *numbers.items()}
    if wrong or not codes:
        raise Wrong(f"  on one side alone: {sorted(wrong)}")


def told(check):
    """The check as `Check` wants it: None, or what is wrong."""

    def run_it(program, folder):
        try:
            check(program, folder)
        except Wrong as wrong:
            return str(wrong)
        return None

    return run_it


def checks():
    """All checks of the library."""
    found = [
        ("calls from C99 and C++17", callers, "cc c++"),
        ("calls under valgrind", under_valgrind, "cc valgrind"),
        ("calls with sanitizers", sanitized, "clang"),
        ("each growth refused", each_refused, "cc"),
        ("eight threads", threads, "cc"),
        ("eight threads under valgrind", threads_watched, "cc valgrind"),
        ("every case", every_case, "cc"),
        ("every explanation", every_explanation, "cc"),
        ("every explanation as JSON", every_object, "cc"),
        ("every rule", every_rule, "cc"),
        ("instructions of a check", instructions, "cc valgrind khronos"),
        ("Rust", in_rust, "cargo"),
        ("Python", in_python, ""),
        ("installed", installed, "cc make"),
        ("found by pkg-config", found_by_pkg_config, "cc make pkg-config"),
        ("found by CMake", found_by_cmake, "cc make cmake"),
        ("README's words for installing", by_readme, "cc make pkg-config"),
    ]
    some, all_calls = frozenset({"library"}), frozenset({"library", "library texts"})
    made = [
        Check(
            f"library: {name}",
            some if it in (installed, instructions) else all_calls,
            told(it),
            frozenset(["library", *tools.split()]),
        )
        for name, it, tools in found
    ]
    made.append(Check("library: man page", some, told(shown_page), frozenset({"man"})))
    made.append(Check("library: Python without it", some, told(without_its_library)))
    made.append(Check("library: one version", some, told(one_version), frozenset()))
    made.append(Check("library: codes of the header", frozenset({"first path"}), told(codes_of_header)))
    return made
