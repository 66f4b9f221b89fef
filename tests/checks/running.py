"""tests/run itself: what a check lacks is skipped and named, or with --insist fails; and how far it tells it is."""

import io
import os
import pty
import re
import subprocess
import sys

from . import library, tested, tools
from .common import SECONDS, TESTS, Check, shown
from .progress import OVER, PAUSE, Progress

RUN = TESTS / "run"
# A quick check that needs tools, and a quick one that needs none.
ARMED, TOOL, PLAIN = "manual: no warnings", "groff", "release: CHANGELOG"
REASON = f"for want of {TOOL}: 1\n  there is no {TOOL} on the PATH .*\n"


def bare(folder, **commands):
    """An environment whose PATH has these commands alone, each a script of a shell."""
    place = folder / "bare"
    place.mkdir(exist_ok=True)
    for name, script in commands.items():
        (place / name).write_text(f"#!/bin/sh\n{script}\n", encoding="utf-8")
        (place / name).chmod(0o755)
    return {**os.environ, "PATH": str(place)}


def told(program, folder, words, env):
    """What tests/run prints with these words, and how it ends."""
    words = [sys.executable, RUN, "--program", program, *words]
    ended = subprocess.run([str(it) for it in words], cwd=folder, env=env, stdin=subprocess.DEVNULL,
                           stdout=subprocess.PIPE, stderr=subprocess.STDOUT, timeout=SECONDS, check=False)
    return ended.stdout.decode(), ended.returncode


def expected(rows, program, folder, env):
    """None if tests/run prints what is wanted with the words of each row, and ends so."""
    for words, pattern, status in rows:
        got = told(program, folder, words, env)
        if not re.fullmatch(pattern, got[0]) or got[1] != status:
            return f"  {words}\n  wanted: {pattern}, exit {status}\n  got:    {shown(got[0])}, exit {got[1]}"
    return None


def skips(program, folder):
    """A check that lacks its tools is skipped and named in the last line; with --insist it fails."""
    passed = "1 passed, 0 failed, 0 wait, 0 skipped\n"
    skipped = f"0 passed, 0 failed, 0 wait, 1 skipped: {TOOL} 1\n"
    left_out = f"skipped for want of {TOOL}: 1\n  --without leaves it out\n"
    rows = [
        (["--only", ARMED], f"skipped {REASON}{skipped}", 0),
        (["--only", ARMED, "--insist"], f"FAILED {REASON}0 passed, 1 failed, 0 wait, 0 skipped\n", 1),
        (["--only", ARMED, "--insist", "--without", TOOL], f"{left_out}{skipped}", 0),
        (["--only", PLAIN], passed, 0),
        (["--only", PLAIN, "--insist"], passed, 0),
    ]
    return expected(rows, program, folder, bare(folder))


def fails(program, folder):
    """A check that fails is printed, and the exit status is 1."""
    pattern = rf"FAILED {ARMED}\n  (.*\n)+0 passed, 1 failed, 0 wait, 0 skipped\n"
    env = bare(folder, **{TOOL: "echo a warning >&2"})
    return expected([(["--only", ARMED], pattern, 1)], program, folder, env)


def unbuilt(_, folder):
    """What was not built is named: the tests of crates, and the library for C."""
    before = tools.CRATES, library.ARCHIVE
    try:
        tools.CRATES, library.ARCHIVE = folder, folder / "libspvk.a"
        missing = tools.missing_tools()
    finally:
        tools.CRATES, library.ARCHIVE = before
    wrong = [name for name in ("tests", "library") if "there is no" not in missing.get(name, "")]
    needed = {tool for check in tested.checks() for tool in check.tools}
    return f"  nothing is told of {wrong}, or nothing needs it" if wrong or "tests" not in needed else None


def on_a_terminal(program, folder):
    """On a terminal a last line shows how many have ended, and what is under way, and is gone at the end."""
    ours, theirs = pty.openpty()
    words = [sys.executable, RUN, "--program", program, "--only", PLAIN]
    with subprocess.Popen([str(it) for it in words], cwd=folder, stdin=theirs, stdout=theirs) as ended:
        os.close(theirs)
        said = b""
        try:
            while part := os.read(ours, 4096):
                said += part
        except OSError:
            pass
    os.close(ours)
    text = said.decode().replace("\r\n", "\n")
    way = re.escape(OVER)
    wanted = rf"({way}0 of 1 checks in \d:\d\d(  {PLAIN} \d:\d\d)?)*{way}1 of 1 checks in \d:\d\d{way}" \
             r"1 passed, 0 failed, 0 wait, 0 skipped\n"
    return None if re.fullmatch(wanted, text) and ended.returncode == 0 else f"  got: {text!r}"


def now_and_then(_, _folder):
    """Without a terminal a line comes after a while, and not for each check; a failure at once."""
    out = io.StringIO()
    progress = Progress(3, out)
    progress.begins("slow")
    progress.begins("quick")
    progress.ends("quick", None)
    progress.ends("wrong", "  why")
    progress.told -= PAUSE
    progress.tell()
    progress.ends("slow", None)
    progress.close()
    wanted = r"FAILED wrong\n  why\n2 of 3 checks in 0:00, 1 failed  slow 0:00\n"
    return None if re.fullmatch(wanted, out.getvalue()) else f"  got: {out.getvalue()!r}"


def checks():
    """The checks of tests/run."""
    rows = [
        ("what is not there is skipped", skips),
        ("a failure", fails),
        ("what was not built", unbuilt),
        ("on a terminal", on_a_terminal),
        ("now and then", now_and_then),
    ]
    return [Check(f"tests/run: {name}", frozenset(), run) for name, run in rows]
