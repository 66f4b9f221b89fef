"""The record of must-fail edits: which of them a change makes due."""

import shutil

from . import edit_gate, edit_record
from .common import TESTS, Check

TOP = TESTS.parent
FILE = "crates/spv_graphs/src/words.rt"
DEFINITIONS = "crates/spv_graphs/specs/Graph.antt"
EDIT = "crates/spv_graphs/must-fail/words_past_the_last_lanes.edit"


def copied(folder):
    """A copy of what the sums are made of."""
    shutil.copy2(TOP / "crates.txt", folder)
    shutil.copytree(TOP / "crates", folder / "crates", ignore=shutil.ignore_patterns("out"))
    return folder


def due(folder, record, toolchain="kit"):
    """The crates of the edits that are due in a copy, and how many of these edits there are."""
    found = edit_record.due(edit_record.Crates(folder, toolchain).sums(), toolchain, record)
    return {it.split("/")[0] for it in found}, len(found)


def changed(path, old, new):
    """Writes a text in place of one that a file has, and answers what it had."""
    text = path.read_text(encoding="utf-8")
    if old not in text:
        raise OSError(f"{path.name} does not have {old!r}")
    path.write_text(text.replace(old, new, 1), encoding="utf-8")
    return text


def body_and_contract(folder):
    """A body and a contract of its own make due the edits of the crate alone, what others call and a definition those of
    the crates above too, an edit itself alone, and another toolchain all."""
    crates = edit_record.Crates(copied(folder), "kit")
    record = {(it, "kit"): checksum for it, checksum in crates.sums().items()}
    counts = {it: sum(1 for crate, _ in crates.edits() if crate == it) for it in crates.uses}
    above = {it for it in crates.uses if counts[it] and (it == "spv_graphs" or "spv_graphs" in crates.below(it))}
    cases = [
        (FILE, "", "", set(), 0),
        (FILE, "{\n    ", "{\n    let _ = 0;\n    ", {"spv_graphs"}, counts["spv_graphs"]),
        (FILE, "    ensures", "    ensures more { ⊤ }\n    ensures", {"spv_graphs"}, counts["spv_graphs"]),
        (FILE, "\npub fn meet(", "\n#[inline]\npub fn meet(", above, sum(counts[it] for it in above)),
        (DEFINITIONS, "\n-- ", "\n-- \n-- ", above, sum(counts[it] for it in above)),
        (EDIT, "# ", "# (own) ", {"spv_graphs"}, 1),
    ]
    for file, old, new, names, number in cases:
        before = changed(folder / file, old, new)
        found = due(folder, record)
        (folder / file).write_text(before, encoding="utf-8")
        if found != (names, number):
            wanted = f"wanted {number} of {sorted(names)}"
            return f"  after {new!r} in {file}: {found[1]} edits of {sorted(found[0])} are due, {wanted}"
    total = due(folder, record, "another kit")[1]
    return None if total == len(record) else f"  {total} of {len(record)} edits are due with another toolchain"


def is_written_by_the_tool(_program, _folder):
    """Each line of the record is one that the tool writes: of an edit that there is, in order, with a checksum."""
    sums = edit_record.Crates(TOP, "").sums()
    text = edit_gate.RECORD.read_text(encoding="utf-8")
    wanted = edit_record.noted(sums, "", edit_record.read(edit_gate.RECORD), [])
    return None if text == wanted else "  tests/edits.record is not what tests/edits writes of it"


def checks():
    """Both."""
    return [
        Check("record of edits: what a change makes due", frozenset(), lambda _, folder: body_and_contract(folder)),
        Check("record of edits: its lines", frozenset(), is_written_by_the_tool),
    ]
