"""The gate of the toolchain over the must-fail edits that are due, and their trial by themselves."""

import os
import re
import shutil
import signal
import subprocess
import sys
import tempfile
from concurrent.futures import ThreadPoolExecutor, as_completed
from pathlib import Path

from . import edit_record
from .common import TESTS

TOP = TESTS.parent
RECORD = TESTS / "edits.record"
REFUSED = re.compile(r"rt: must-fail (\w+)/([\w.-]+)\.edit: refused, as it must be")


class NoToolchain(Exception):
    """The command `rt` is missing, or does not tell its version."""


def toolchain():
    """The toolchain, as one word: what `rt version` prints."""
    try:
        ran = subprocess.run(["rt", "version"], capture_output=True, text=True, check=True)
    except (OSError, subprocess.CalledProcessError) as reason:
        raise NoToolchain(f"rt version: {reason}") from reason
    return ":".join(ran.stdout.split())


class State:
    """The edits as they stand, with their checksums, and the toolchain that is at hand."""

    def __init__(self):
        self.toolchain = toolchain()
        self.sums = edit_record.Crates(TOP, self.toolchain).sums()

    def due(self):
        """The edits that the record does not have as they stand."""
        return edit_record.due(self.sums, self.toolchain, edit_record.read(RECORD))

    def note(self, refused):
        """Writes these edits, which the prover has refused, into the record."""
        text = edit_record.noted(self.sums, self.toolchain, edit_record.read(RECORD), refused)
        RECORD.write_text(text, encoding="utf-8")


def link(file, to):
    """Gives a file a second name, or copies it where that cannot be."""
    try:
        os.link(file, to)
    except OSError:
        shutil.copy2(file, to)


def lay_out(folder, edits, with_libraries=False):
    """Copies the crates to a folder, of their must-fail edits these alone; with the libraries that stand in out/, where
    they are wanted."""
    for name in ("crates.txt", "HANDLES"):
        shutil.copy2(TOP / name, folder / name)
    for crate in sorted(it for it in (TOP / "crates").iterdir() if it.is_dir()):
        to = folder / "crates" / crate.name
        shutil.copytree(crate, to, ignore=shutil.ignore_patterns("out", "must-fail"))
        library = crate / "out/rlib"
        if with_libraries and library.is_dir():
            shutil.copytree(library, to / "out/rlib", copy_function=link)
    for edit in edits:
        crate, name = edit.split("/")
        to = folder / "crates" / crate / "must-fail"
        to.mkdir(exist_ok=True)
        shutil.copy2(TOP / "crates" / crate / "must-fail" / f"{name}.edit", to)


def run(words, folder):
    """Runs a command in a folder, hands on each line that it prints, and answers its exit status and the edits that
    were refused."""
    refused = []
    with subprocess.Popen(words, cwd=folder, stdout=subprocess.PIPE, stderr=subprocess.STDOUT, stdin=subprocess.DEVNULL,
                          text=True, errors="replace") as started:
        for line in started.stdout:
            print(line, end="", flush=True)
            found = REFUSED.match(line)
            refused += [f"{found[1]}/{found[2]}"] if found else []
    return started.returncode, refused


def begin_archive(folder):
    """Begins to make the library for C beside the gate in that folder, which has the libraries that it is made of long
    before its own end. What is printed goes to the file archive.log there."""
    with (folder / "archive.log").open("wb") as log:
        return subprocess.Popen([TOP / "install/archive", "--beside", folder], stdin=subprocess.DEVNULL, stdout=log,
                                stderr=subprocess.STDOUT, start_new_session=True)


def end_archive(folder, started, has_passed):
    """Waits until the library for C is made, and hands on what was printed; or gives it up where the gate has failed."""
    if has_passed:
        started.wait()
        print((folder / "archive.log").read_text(encoding="utf-8", errors="replace"), end="", flush=True)
    else:
        os.killpg(started.pid, signal.SIGKILL)
        started.wait()


def take_back(folder):
    """Takes what the gate left in the crates' folders out/ of a copy."""
    for made in (folder / "crates").glob("*/out"):
        to = TOP / "crates" / made.parent.name / "out"
        shutil.rmtree(to, ignore_errors=True)
        shutil.move(made, to)


def gate(whole):
    """The gate: all crates with their tests, and all edits or those that are due. Answers its exit status."""
    state = State()
    if whole:
        status, refused = run(["rt", "ci"], TOP)
    else:
        edits = state.due()
        total = len(state.sums)
        kept = total - len(edits)
        print(f"{kept} of {total} must-fail edits are in tests/edits.record as they stand, {len(edits)} are tried")
        with tempfile.TemporaryDirectory(prefix="spv-gate-") as room:
            folder = Path(room)
            lay_out(folder, edits)
            archive = begin_archive(folder)
            status, refused = run(["rt", "ci"], folder)
            end_archive(folder, archive, status == 0)
            take_back(folder)
    state.note(refused)
    return status


def trial(crate, edits):
    """Tries the edits of a crate by themselves, over the libraries in out/: the exit status, and which were refused."""
    with tempfile.TemporaryDirectory(prefix="spv-edits-") as room:
        lay_out(Path(room), edits, with_libraries=True)
        return run(["rt", "must-fail", crate], Path(room))


def try_due(names):
    """Tries the edits that are due, of all crates or of these, as many crates at once as RT_JOBS says. Answers the exit
    status."""
    state, wanted = State(), {}
    for edit in state.due():
        if not names or edit.split("/")[0] in names:
            wanted.setdefault(edit.split("/")[0], []).append(edit)
    jobs = os.environ.get("RT_JOBS", "1")
    worst = 0
    with ThreadPoolExecutor(int(jobs) if jobs.isdigit() and jobs != "0" else 1) as pool:
        for done in as_completed([pool.submit(trial, *it) for it in wanted.items()]):
            status, refused = done.result()
            worst = max(worst, status)
            state.note(refused)
    if worst:
        print("tests/edits: not all were refused", file=sys.stderr)
    return worst
