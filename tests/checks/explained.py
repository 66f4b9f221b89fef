"""The lines of `explain`, judged by tests/reading, of the modules of tests/modules and of cases."""

import subprocess
from functools import lru_cache

from reading.judge import judged
from reading.profiles import Profile
from reading.verdict import grammar_in

from . import opencl
from .cases import OPENCL, written
from .common import TESTS, Check
from .ruled import PAGE, sentences

PROFILE = TESTS / "profile.json"
LAYERS = frozenset({"first path", "instructions", "layout", "ids", "types", "operations", "flow", "calls", "show"})
SECONDS = 60


def output(program, *words):
    """What the program prints."""
    ended = subprocess.run(
        [str(program), *map(str, words)], stdout=subprocess.PIPE, stderr=subprocess.PIPE, timeout=SECONDS, check=False
    )
    return ended.stdout.decode()


@lru_cache(maxsize=1)
def sentence_of():
    """What each code says."""
    return dict(sentences(PAGE.read_text(encoding="utf-8")))


def file_of(profile):
    """The grammar file that has what is looked at."""
    return TESTS / OPENCL if profile == Profile.OPENCL else PROFILE


def modules(profile, folder):
    """The modules that are explained: those of tests/modules and of texts of cases, or those of cases of `--opencl`."""
    paths, texts = sorted((TESTS / "modules").glob("*.spv")), written()
    if profile == Profile.OPENCL:
        paths, texts = [], opencl.written()
    for name, content in texts.items():
        paths.append(folder / f"{name}.spv")
        paths[-1].write_bytes(content)
    return paths


def difference(program, path, grammar, profile=Profile.OWN):
    """None if the verdict on a module is that of `check`, and each line that explains it is true, in full too, else
    what is not; by how far it is looked at."""
    asked, file = profile.flags, file_of(profile)
    verdict = output(program, "check", *asked, "--grammar", file, path).split("\n")[:-1]
    for flags in ([], ["--full"]):
        printed = output(program, "explain", *asked, *flags, "--grammar", file, path).split("\n")[:-1]
        if printed[:1] != verdict:
            return f"  {path.name}: {printed[:1]} and not {verdict}"
        _, _, wrong = judged(grammar, sentence_of(), path.read_bytes(), printed, bool(flags), profile)
        if wrong:
            return "\n".join(f"  {path.name} {' '.join(asked + flags)}: {it}" for it in wrong)
    return None


def explained(profile):
    """The check that all modules are explained by true lines."""

    def check(program, folder):
        grammar, paths = grammar_in(file_of(profile)), modules(profile, folder)
        wrong = [it for it in (difference(program, path, grammar, profile) for path in paths) if it]
        return "\n".join(wrong) or None

    return check


def checks():
    """All modules, without and with the operands of extended instructions."""
    return [
        Check("explain beside the second reading", LAYERS, explained(Profile.OWN)),
        Check("explain beside the second reading, extended", LAYERS, explained(Profile.EXTENDED)),
        Check("explain beside the second reading, opencl", LAYERS | {"opencl"}, explained(Profile.OPENCL)),
    ]
