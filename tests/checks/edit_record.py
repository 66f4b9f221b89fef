"""The record of must-fail edits that the prover has refused: which of them need not be tried again.

A line of tests/edits.record names an edit, the toolchain that refused it, and a checksum of all that this hangs on:
the edit's text, its crate's src/, specs/ and proofs/, the contracts and definitions of the crates below, and the
toolchain. An edit is due where the record has no line with its present checksum.

Of a crate below these count: its definitions in specs/, but for those of specs/inner/ that nothing here imports; and
its src/ without comments, imports, attributes for the prover, bodies of functions, and functions that are not public.
"""

import hashlib
import re
from pathlib import Path

PARTS = ("src", "specs", "proofs")
FUNCTION = re.compile(r'(?P<indent> *)(?P<public>pub )?(?:pub\([^)]*\) )?(?:(?:const|unsafe|extern "C") )*fn \w')
OPEN_BLOCK = re.compile(r"(?:pub )?(?:unsafe )?(?:trait\b|impl\b.*\bfor\b)")
UNSEEN = re.compile(r"#!?\[tactic\b|(?:pub\([^)]*\) )?mod \w+;")
IMPORT = re.compile(r"Rattle\.(\w+)\.specs\.((?:\w+\.)*\w+)")
HEAD = """\
# The must-fail edits that the prover has refused as they stand: edit, toolchain, checksum of all that this hangs on.
# Written by tests/edits and .ci/run alone, once an edit was refused; .ci/run tries the edits that have no line here.
"""


def body_of(lines, start):
    """The first line of the body of the function whose text starts at a line, and the line that closes it; None where
    it has none, or none that is laid out as `rt fmt` does."""
    indent = FUNCTION.match(lines[start])["indent"]
    for at in range(start, len(lines)):
        line = lines[at]
        if line.endswith(";") or not line.startswith(indent):
            return None
        if line[len(indent) : len(indent) + 1] not in ("", " ") and line.endswith("{"):
            close = next((it for it in range(at + 1, len(lines)) if lines[it] == indent + "}"), None)
            return None if close is None else (at + 1, close)
    return None


def seen(text):
    """The lines of a file of src/ without comments, private imports and modules, and attributes for the prover."""
    is_import = False
    for line in text.splitlines():
        is_import = is_import or line.startswith("use ")
        if not (is_import or line.lstrip().startswith("//") or UNSEEN.match(line.lstrip()) or not line.strip()):
            yield line.rstrip()
        is_import = is_import and not line.endswith(";")


def is_exported(file):
    """Whether a module hands on what it has: each module on the way to it is public, or has something that is handed
    on."""
    if file.stem in ("lib", "main") or file.parent.name == "src" and not (file.parent / "lib.rt").is_file():
        return True
    parent = file.parent / "lib.rt" if file.parent.name == "src" else file.parent.with_suffix(".rt")
    text = parent.read_text(encoding="utf-8") if parent.is_file() else ""
    is_named = re.search(rf"\bpub mod {file.stem};|\bpub use [^;]*\b{file.stem}::", text)
    return bool(is_named) and is_exported(parent)


def contracts(text, is_exported=True):
    """What a crate above may know of a file of src/: what is seen of it, without the bodies of functions, and without
    functions that are not public, where they stand in no trait and implement none. Of a module that hands on nothing
    the functions that stand by themselves are not public either."""
    lines, kept, at, is_open = list(seen(text)), [], 0, False
    while at < len(lines):
        line = lines[at]
        if line and not line.startswith((" ", "}")):
            is_open = bool(OPEN_BLOCK.match(line))
        found = FUNCTION.match(line)
        body = body_of(lines, at) if found else None
        if not body:
            kept.append(line)
            at += 1
            continue
        first, close = body
        if is_open or found["public"] and (is_exported or found["indent"]):
            kept += lines[at:first] + [lines[close]]
        at = close + 1
    return "\n".join(it for it in kept if ".specs.inner." not in it)


class Crates:
    """The crates of a repository, with what each stands on, and the sums of what their edits hang on."""

    def __init__(self, top, toolchain):
        self.top, self.toolchain = Path(top), toolchain
        self.uses, self.texts, self.imports, self.promised, self.known = {}, {}, {}, {}, {}
        for line in (self.top / "crates.txt").read_text(encoding="utf-8").splitlines():
            found = re.match(r"(\w+)[^:]*:(.*)", line.partition("#")[0])
            if found:
                self.uses[found[1]] = found[2].split()

    def below(self, crate):
        """The crates of the repository that a crate stands on, by however many others."""
        found, due = set(), [crate]
        while due:
            for name in self.uses[due.pop()]:
                if name in self.uses and name not in found:
                    found.add(name)
                    due.append(name)
        return sorted(found)

    def text(self, path):
        """The text of a file, read once."""
        if path not in self.texts:
            self.texts[path] = path.read_text(encoding="utf-8")
        return self.texts[path]

    def files(self, crate, part):
        """The files of a part of a crate, in order."""
        return sorted(it for it in (self.top / "crates" / crate / part).rglob("*") if it.is_file())

    def imported(self, path):
        """The files of specs/ that a file imports from."""
        if path not in self.imports:
            found = {self.imported_by(*it) for it in set(IMPORT.findall(self.text(path)))}
            self.imports[path] = found - {None}
        return self.imports[path]

    def imported_by(self, crate, path):
        """The file of specs/ that a path of an import leads into."""
        names = path.split(".")
        tried = (self.top.joinpath("crates", crate, "specs", *names[:it]) for it in range(len(names), 0, -1))
        return next((it for it in (file.with_suffix(".antt") for file in tried) if it.is_file()), None)

    def promise(self, path):
        """What a crate above may know of a file of src/."""
        if path not in self.promised:
            self.promised[path] = contracts(self.text(path), is_exported(path))
        return self.promised[path]

    def definitions(self, crate):
        """The files of definitions of the crates below that count for a crate: all but those of specs/inner/, and of
        these what the crate's own files or those definitions import."""
        below = {it: self.files(it, "specs") for it in self.below(crate)}
        chosen = {it for files in below.values() for it in files if "inner" not in it.parts}
        due = list(chosen) + [it for part in PARTS for it in self.files(crate, part)]
        while due:
            for file in self.imported(due.pop()):
                if file not in chosen and file.relative_to(self.top / "crates").parts[0] in below:
                    chosen.add(file)
                    due.append(file)
        return sorted(chosen)

    def whole(self, crate):
        """The sum, so far, of what the refusal of each edit of a crate hangs on, beside the edit itself."""
        if crate not in self.known:
            parts = [self.toolchain, *self.uses[crate]]
            parts += [self.named(it, self.text(it)) for part in PARTS for it in self.files(crate, part)]
            parts += [self.named(it, self.text(it)) for it in self.definitions(crate)]
            for it in self.below(crate):
                files = [file for file in self.files(it, "src") if self.promise(file)]
                parts += [self.named(file, self.promise(file)) for file in files]
            self.known[crate] = hashlib.sha256("\0".join(parts).encode())
        return self.known[crate].copy()

    def named(self, path, text):
        """A text behind the path of its file."""
        return f"{path.relative_to(self.top)}\n{text}"

    def edits(self):
        """The must-fail edits, those of the lower crates first: crate and file."""
        for crate in self.uses:
            for path in sorted((self.top / "crates" / crate / "must-fail").glob("*.edit")):
                yield crate, path

    def sums(self):
        """The checksum of each edit, by its name with its crate."""
        found = {}
        for crate, path in self.edits():
            checksum = self.whole(crate)
            checksum.update(b"\0" + path.read_bytes())
            found[f"{crate}/{path.stem}"] = checksum.hexdigest()
        return found


def read(path):
    """The lines of a record: a checksum by edit and toolchain."""
    found = {}
    for line in path.read_text(encoding="utf-8").splitlines() if path.is_file() else ():
        if not line.startswith("#"):
            edit, toolchain, checksum = line.split()
            found[edit, toolchain] = checksum
    return found


def due(sums, toolchain, record):
    """The edits that have to be tried, of those with these checksums."""
    return [it for it, checksum in sums.items() if record.get((it, toolchain)) != checksum]


def noted(sums, toolchain, record, refused):
    """The text of the record with these edits, which the prover has refused as they stood when the checksums were
    taken, and without those that are gone."""
    lines = {key: checksum for key, checksum in record.items() if key[0] in sums}
    lines.update({(it, toolchain): sums[it] for it in refused if it in sums})
    order = {it: place for place, it in enumerate(sums)}
    rows = sorted(lines.items(), key=lambda row: (order[row[0][0]], row[0][1]))
    return HEAD + "".join(f"{edit} {toolchain} {checksum}\n" for (edit, toolchain), checksum in rows)
