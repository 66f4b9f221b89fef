"""The tables of docs/EDITS.md beside what the must-fail edits say of themselves.

Lines at the head of an edit, which the toolchain passes over, say what it is for: `# call: ` the calls that it belongs
to and `# does: ` what its body does, or `# mistake: ` the plausible mistake that it makes, or all three.
"""

import re

from .common import TESTS, Check

TOP = TESTS.parent
PAGE = TOP / "docs/EDITS.md"
KEYS = ("call", "does", "mistake")
CALLS = "| Call | Edit | What it does |\n|---|---|---|\n"
MISTAKES = "| Wrong body | Edit that shows it |\n|---|---|\n"


class Unsaid(Exception):
    """An edit that does not say what it is for, or a page without a table."""


def crates():
    """The crates in the order of crates.txt."""
    lines = (TOP / "crates.txt").read_text(encoding="utf-8").splitlines()
    return [re.match(r"\w+", line)[0] for line in lines if re.match(r"\w", line)]


def said(path):
    """What an edit says of itself, by key."""
    lines = path.read_text(encoding="utf-8").splitlines()
    found = [re.fullmatch(r"# (\w+): (.+)", line) for line in lines]
    words = {it[1]: it[2] for it in found if it}
    if set(words) not in ({"call", "does"}, {"mistake"}, set(KEYS)):
        raise Unsaid(f"{path.relative_to(TOP)} has lines '# call: ' and '# does: ', or '# mistake: ', or all three")
    return words


def edits():
    """The edits, those of the lower crates first, each by its name with its crate, and what it says."""
    for crate in crates():
        for path in sorted((TOP / "crates" / crate / "must-fail").glob("*.edit")):
            yield f"{crate}/{path.stem}", said(path)


def with_table(text, head, rows):
    """The text with these rows behind the head of a table."""
    if text.count(head) != 1:
        raise Unsaid(f"docs/EDITS.md has no table '{head.splitlines()[0]}'")
    before, after = text.split(head)
    return before + head + "".join(row + "\n" for row in rows) + re.sub(r"\A(?:\|.*\n)*", "", after)


def page():
    """The page, with its tables as the edits are."""
    found = list(edits())
    calls = [f"| {it['call']} | {name} | {it['does']} |" for name, it in found if "call" in it]
    mistakes = [f"| {it['mistake']} | {name} |" for name, it in found if "mistake" in it]
    return with_table(with_table(PAGE.read_text(encoding="utf-8"), CALLS, calls), MISTAKES, mistakes)


def is_kept(_program, _folder):
    """The tables of the page are those of the edits."""
    try:
        wanted = page()
    except Unsaid as reason:
        return f"  {reason}"
    same = PAGE.read_text(encoding="utf-8") == wanted
    return None if same else "  docs/EDITS.md differs from what tests/edits writes"


def checks():
    """The one check."""
    return [Check("must-fail edits: their tables", frozenset(), is_kept)]
