"""The instructions of the processor that runs take, by bench/count, beside those that are kept."""

from .common import TESTS, Check, joined

COUNT = TESTS.parent / "bench/count"
SECONDS = 900
LAYERS = frozenset({"first path"})


def counted(*words):
    """The check that no count of `bench/count` with these words is more than a tenth above the one kept."""

    def check(program, folder):
        out, status = joined([COUNT, "--program", program, *words], folder, SECONDS)
        return None if status == 0 else f"  {out.decode(errors='replace')}"

    return check


def checks():
    """All counts, and apart from them the one under Khronos' grammar."""
    return [
        Check("counts", LAYERS, counted("--without", "khronos"), frozenset({"valgrind"})),
        Check(
            "counts: Khronos' grammar",
            LAYERS,
            counted("tiny-khronos"),
            frozenset({"valgrind", "khronos"}),
        ),
    ]
