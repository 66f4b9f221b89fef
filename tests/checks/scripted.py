"""Lines for scripts: names before verdicts or none, the exit status alone, and every code that `rules` knows."""

import os
import subprocess

from .common import LAYERS as ALL_LAYERS
from .common import SECONDS, Answer, Check, difference, run
from .many import LOOP, lines, placed
from .ruled import PAGE, sentences
from .usage import BAD_USE, BROKEN, GRAMMAR, KERNEL, NO_FILE, TEXT, under

LAYERS = frozenset(ALL_LAYERS)
WITH = ("-H", "--with-filename")
WITHOUT = "--no-filename"
QUIET = "--quiet"
FULL = "--full"
JUDGES = ("check", "explain")
SILENT = {status: Answer(b"", b"", status) for status in (0, 1)}


def judged(program, folder, *words, **how):
    """A run with these words under the grammar file of the profile."""
    return run(program, words, folder, **{"env": under(GRAMMAR), **how})


def first_difference(rows, program, folder):
    """None if each row's words get its answer, else the first that do not."""
    for words, wanted in rows:
        wrong = difference(wanted, judged(program, folder, *words))
        if wrong:
            return f"  {' '.join(map(str, words))}\n{wrong}"
    return None


def named_alone(program, folder):
    """With `-H` one file has its name before its verdict, as several have: of `explain` and `-` too."""
    placed(folder, a=KERNEL.read_bytes(), b=BROKEN.read_bytes())
    rows = []
    for command in JUDGES:
        fault = judged(program, folder, command, "b.spv").out
        several = judged(program, folder, command, "a.spv", "b.spv")
        for flag in WITH:
            rows.append(([command, flag, "a.spv"], Answer(b"a.spv: valid\n", b"", 0)))
            rows.append(([command, "b.spv", flag], Answer(b"b.spv: " + fault, b"", 1)))
            rows.append(([command, flag, "a.spv", "b.spv"], several))
    wrong = first_difference(rows, program, folder)
    with KERNEL.open("rb") as file:
        got = judged(program, folder, "check", "-H", "-", stdin=file)
    return wrong or difference(Answer(b"-: valid\n", b"", 0), got)


def no_names(program, folder):
    """With `--no-filename` several files have their verdicts alone, in order; one file as ever."""
    placed(folder, a=KERNEL.read_bytes(), b=BROKEN.read_bytes(), c=b"123")
    rows = []
    for command in JUDGES:
        alone = [judged(program, folder, command, f"{name}.spv").out for name in "abc"]
        rows.append(([command, WITHOUT, "a.spv", "b.spv", "c.spv"], Answer(b"".join(alone), b"", 1)))
        rows.append(([command, WITHOUT, "b.spv"], Answer(alone[1], b"", 1)))
        rows.append(([command, WITHOUT, "a.spv", "a.spv"], Answer(b"valid\nvalid\n", b"", 0)))
    return first_difference(rows, program, folder)


def unread(program, folder):
    """A file that is not read: with `-H` it is named if it is alone, too, and of several it is always named."""
    placed(folder, a=KERNEL.read_bytes())
    (folder / "folder").mkdir()
    rows = []
    for command in JUDGES:
        for name in ("absent.spv", "folder", "a.spv/"):
            named = f"{name}: error file\n".encode()
            rows.append(([command, name], NO_FILE))
            rows.append(([command, WITHOUT, name], NO_FILE))
            rows.extend(([command, flag, name], Answer(b"", named, 2)) for flag in WITH)
            rows.append(([command, "-H", name, "a.spv"], Answer(b"a.spv: valid\n", named, 2)))
            rows.append(([command, WITHOUT, name, "a.spv"], Answer(b"valid\n", named, 2)))
    return first_difference(rows, program, folder)


def of_odd_names(program, folder):
    """With `-H` too a control character in a name is written by its number, and a backslash twice."""
    rows = []
    for name, text in (("line\nfeed", "line\\x0afeed"), ("back\\slash", "back\\\\slash"), ("\x1b[31m", "\\x1b[31m")):
        (folder / name).write_bytes(KERNEL.read_bytes())
        rows.append((["check", "-H", name], Answer(lines(f"{text}: valid"), b"", 0)))
        rows.append((["check", "-H", f"no {name}"], Answer(b"", lines(f"no {text}: error file"), 2)))
    return first_difference(rows, program, folder)


def like_ten(program, folder):
    """A glob with one match reads like one with ten."""
    for count in (1, 10):
        place = folder / str(count)
        place.mkdir()
        names = [f"{number}.spv" for number in range(count)]
        for name in names:
            (place / name).write_bytes(KERNEL.read_bytes())
        script = f'"{program}" check -H *.spv'
        ended = subprocess.run(
            ["sh", "-c", script], cwd=place, env=under(GRAMMAR), capture_output=True, timeout=SECONDS, check=False
        )
        wanted = Answer(lines(*(f"{name}: valid" for name in names)), b"", 0)
        wrong = difference(wanted, Answer(ended.stdout, ended.stderr, ended.returncode))
        if wrong:
            return wrong
    return None


def quiet(program, folder):
    """`--quiet` writes no verdict and nothing that explains it: the exit status gives it, of several files too."""
    placed(folder, a=KERNEL.read_bytes(), b=BROKEN.read_bytes(), c=b"123", d=LOOP.read_bytes())
    rows = []
    for command in JUDGES:
        for names, status in ("a", 0), ("b", 1), ("c", 1), ("ad", 0), ("abd", 1), ("cba", 1):
            files = [f"{name}.spv" for name in names]
            rows.append(([command, QUIET, *files], SILENT[status]))
            rows.append(([command, *files, QUIET, "-H"], SILENT[status]))
            rows.append(([command, WITHOUT, QUIET, *files], SILENT[status]))
    return first_difference(rows, program, folder)


def quiet_of_errors(program, folder):
    """With `--quiet` errors are still reported, by the line and by the status, and the other files are judged."""
    placed(folder, a=KERNEL.read_bytes(), b=BROKEN.read_bytes())
    refused = folder / "refused.json"
    refused.write_bytes(b"[1")
    absent = b"absent.spv: error file\n"
    rows = []
    for command in JUDGES:
        rows += [
            ([command, QUIET, "absent.spv"], NO_FILE),
            ([command, QUIET, "-H", "absent.spv"], Answer(b"", absent, 2)),
            ([command, QUIET, "a.spv", "absent.spv"], Answer(b"", absent, 2)),
            ([command, QUIET, "absent.spv", "b.spv"], Answer(b"", absent, 2)),
            ([command, QUIET, "--grammar", refused, "a.spv"], Answer(b"", b"error J1\n", 2)),
            ([command, QUIET], BAD_USE),
        ]
    return first_difference(rows, program, folder)


def quiet_beside_full(program, folder):
    """With `--quiet` an output that takes nothing is not asked: the verdict's status stands."""
    rows = [(["check", QUIET, KERNEL], 0), (["explain", QUIET, BROKEN], 1), (["check", QUIET, KERNEL, BROKEN], 1)]
    for words, status in rows:
        with open("/dev/full", "wb") as full:
            got = judged(program, folder, *words, stdout=full)
        closed = judged(program, folder, *words, stdout=None, preexec_fn=lambda: os.close(1))
        wrong = difference(SILENT[status], got) or difference(SILENT[status], closed)
        if wrong:
            return f"  {words}\n{wrong}"
    return None


def words_that_do_not_fit(program, folder):
    """Both names and none, an option twice, and commands that have no such options."""
    rows = [
        ["check", "-H", WITHOUT, KERNEL],
        ["explain", WITHOUT, "--with-filename", KERNEL, KERNEL],
        ["check", "-H", "-H", KERNEL],
        ["check", QUIET, QUIET, KERNEL],
        ["check", "-Hx", KERNEL],
        ["check", "-q", KERNEL],
        ["check", f"{QUIET}=1", KERNEL],
        ["show", "-H", KERNEL],
        ["show", QUIET, KERNEL],
        ["check", FULL, KERNEL],
        ["explain", FULL, FULL, KERNEL],
        ["explain", f"{FULL}=1", KERNEL],
        ["show", FULL, KERNEL],
        ["asm", QUIET, "--out", "made", TEXT],
        ["trace", WITHOUT, "--function", "3", "--limit", "1", KERNEL],
        ["rules", QUIET],
        ["grammar", "-H"],
        ["check", "--json", "--json", KERNEL],
        ["explain", "--json=1", KERNEL],
        ["show", "--json", KERNEL],
        ["rules", "--json", "A9"],
        ["check", "--html", KERNEL],
        ["annotate", "--html", "--html", KERNEL],
        ["annotate", "--color", KERNEL],
        ["annotate", "--color", "sometimes", KERNEL],
        ["annotate", "--color=", KERNEL],
        ["annotate", "--function", KERNEL],
        ["annotate", "--function", "3", "--function", "3", KERNEL],
        ["annotate", "--json", KERNEL],
        ["annotate", KERNEL, KERNEL],
        ["graph", "--html", KERNEL],
        ["graph", "--function", "-1", KERNEL],
        ["graph", "--color", "never", KERNEL],
        ["graph", KERNEL, KERNEL],
        ["asm", "--explain", "--explain", "--out", "made", TEXT],
        ["trace", "--explain", "--function", "3", "--limit", "1", KERNEL],
    ]
    wrong = first_difference([(words, BAD_USE) for words in rows], program, folder)
    return wrong or ("  OUT was made" if (folder / "made").exists() else None)


def every_code(program, folder):
    """`rules` has every code of docs/PROFILE.md, among all and alone, in capital and in small letters."""
    listed = judged(program, folder, "rules").out.decode().splitlines()
    named = {line.split(":")[0]: line for line in listed}
    for code, _ in sentences(PAGE.read_text(encoding="utf-8")):
        alone = judged(program, folder, "rules", code)
        fine = alone.out.decode().splitlines()[:1] == [named.get(code, "")] and (alone.err, alone.status) == (b"", 0)
        if not fine or len(named[code]) < 20:
            return f"  {code}: {alone}, and among all: {named.get(code)}"
        wrong = difference(alone, judged(program, folder, "rules", code.lower()))
        if wrong:
            return f"  {code.lower()}\n{wrong}"
    return None


def no_codes(program, folder):
    """What is no code is `error use`."""
    texts = ["A", "A0", "A3", "A01", "A1 ", " A1", "a1a", "J0", "J9", "S9"]
    texts += ["X9", "X0", "N9", "Z1", "1", "", "W10", "I13"]
    texts += ["а1", "A١"]
    return first_difference([(["rules", text], BAD_USE) for text in texts], program, folder)


def checks():
    """All of these."""
    found = [
        ("a name before one", named_alone),
        ("no names before several", no_names),
        ("files that are not read", unread),
        ("names of all kinds", of_odd_names),
        ("one match like ten", like_ten),
        ("the exit status alone", quiet),
        ("quiet of errors", quiet_of_errors),
        ("quiet beside a full output", quiet_beside_full),
        ("words that do not fit", words_that_do_not_fit),
        ("rules of every code", every_code),
        ("what is no code", no_codes),
    ]
    return [Check(f"lines for scripts: {name}", LAYERS, run_it) for name, run_it in found]
