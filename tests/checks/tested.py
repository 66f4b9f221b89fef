"""Some tests of the crates with each growth of memory in a call refused in turn.

The tests call what the program does not call by itself, again and again, and have the library in
refuse/ refuse the first growth of the call, then the second, and so on until none is refused
(crates/spv_samples/src/growths.rt). Each call must answer its own error for lack of memory, and with
none refused rightly; where it answers rightly although one was refused, refuse/tests must say so.
Their programs are left by `rt ci` in the crates' folders out/. That the constants which they read are
the files of this folder is a check of its own.
"""

import os
import struct
import subprocess

from . import samples
from .common import SECONDS, TESTS, Check, Unusable
from .refused import library

CRATES = TESTS.parent / "crates"
FINE = (0, "\ntest result: ok\n")
TALLY = struct.Struct("=5Q")


def test_program(crate):
    """The program of a crate's tests."""
    return CRATES / crate / "out" / f"{crate}_tests"


def run_with_refusals(crate, test, folder):
    """Runs the test with the library: how it ended, and the numbers of the tally."""
    tally = folder / "tally"
    tally.write_bytes(bytes(TALLY.size))
    ended = subprocess.run(
        [str(test_program(crate)), test],
        cwd=folder,
        env={**os.environ, "LD_PRELOAD": str(library(folder)), "REFUSE_TELL": str(tally)},
        stdin=subprocess.DEVNULL,
        stdout=subprocess.PIPE,
        stderr=subprocess.STDOUT,
        timeout=SECONDS,
        check=False,
    )
    answer = (ended.returncode, ended.stdout.decode(errors="replace"))
    return answer, TALLY.unpack(tally.read_bytes())


def each_refused(crate, test, does_without, folder):
    """Runs the test, and says what is wrong, if anything."""
    answer, (began, _, refused, stretches, without) = run_with_refusals(crate, test, folder)
    if not began:
        return "  the library did not take hold: is the program linked with the C library?"
    if answer != FINE:
        return f"  after {refused} growths refused\n  got:    {answer}"
    if refused == 0 or refused >= stretches:
        return f"  {refused} growths refused in {stretches} stretches: the marks are not understood"
    if (without > 0) != does_without:
        return f"  {without} calls answered rightly without a growth: tests/refuse/tests is to say so"
    return None


def chosen_tests():
    """The tests that tests/refuse/tests names: the crate, the test, and whether it does without a growth."""
    lines = (TESTS / "refuse/tests").read_text(encoding="utf-8").splitlines()
    found = []
    for line in lines:
        words = line.split()
        if not words or line.startswith("#"):
            continue
        if len(words) > 3 or words[2:] not in ([], ["without"]) or len(words) < 2:
            raise Unusable(f"tests/refuse/tests: no crate and test: {line}")
        if not (CRATES / words[0] / "src").is_dir():
            raise Unusable(f"tests/refuse/tests: no such crate: {words[0]}")
        found.append((words[0], words[1], words[2:] == ["without"]))
    return found


def unlisted():
    """None if each file of tests in which growths are refused has a test that tests/refuse/tests names."""
    listed = {(crate, test.rpartition("::")[0]) for crate, test, _ in chosen_tests()}
    missing = []
    for path in sorted(CRATES.glob("spv_*_tests/src/**/*.rt")):
        crate = path.relative_to(CRATES).parts[0]
        module = "::".join(path.relative_to(CRATES / crate / "src").with_suffix("").parts)
        if " each_refused(" in path.read_text(encoding="utf-8") and (crate, module) not in listed:
            missing.append(f"{crate} {module}")
    return f"  tests/refuse/tests names no test of {', '.join(missing)}" if missing else None


def same_samples():
    """None if the constants of spv_samples are as the files give them."""
    wrong = [path.name for path in samples.differing()]
    return f"  tests/samples writes something else: {', '.join(wrong)}" if wrong else None


def checks():
    """One check of the samples, and one for each chosen test."""
    tools = frozenset({"cc", "tests"})
    layer = frozenset({"instructions"})

    def check(crate, test, does_without):
        return Check(
            f"each growth refused in a test: {crate} {test}",
            layer,
            lambda _, folder: each_refused(crate, test, does_without, folder),
            tools,
        )

    found = [Check("samples of the crates' tests", layer, lambda *_: same_samples(), frozenset())]
    found.append(Check("tests with growths refused, each listed", layer, lambda *_: unlisted(), frozenset()))
    return found + [check(*chosen) for chosen in chosen_tests()]
