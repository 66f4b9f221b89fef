"""What `asm` leaves as it was: FILE, by whatever name OUT has, and OUT, where no module is made."""

import os
import shutil
import subprocess
import threading

from .common import LAYERS as ALL_LAYERS
from .common import SECONDS, Answer, Check, difference, run
from .usage import BAD_USE, GRAMMAR, KERNEL, NO_FILE, TEXT, under

LAYERS = frozenset(ALL_LAYERS)
BEFORE = b"what stood here before\n"
DONE = Answer(b"", b"", 0)


def assembled(program, folder, out, file, *words, **how):
    """A run of `asm` with these names."""
    return run(program, ["asm", *words, "--out", out, file], folder, **{"env": under(GRAMMAR), **how})


def state(path):
    """What says whether a file was written: its bytes, its length and the time of its last change."""
    found = path.stat()
    return path.read_bytes(), found.st_size, found.st_mtime_ns, found.st_ino


def laid_out(folder):
    """A text `a` with other names for it: links of both kinds, a link to a link, and a link to its folder."""
    (folder / "a").write_bytes(TEXT.read_bytes())
    (folder / "in").mkdir()
    (folder / "link").symlink_to("a")
    (folder / "far").symlink_to(folder / "link")
    (folder / "in/link").symlink_to("../a")
    (folder / "place").symlink_to(".")
    os.link(folder / "a", folder / "hard")
    os.link(folder / "a", folder / "in/hard")


NAMES = ("a", "./a", ".//a", "in/../a", "in/./../a", "link", "far", "in/link", "place/a", "place/in/../a")
NAMES += ("hard", "in/hard")


def same_file(program, folder):
    """OUT is FILE by each pair of names: `error use`, and the text stays as it is, links and all."""
    laid_out(folder)
    before = state(folder / "a")
    names = [*NAMES, str(folder / "a"), str(folder / "link"), f"../{folder.name}/a"]
    for file in names:
        for out in names:
            got = assembled(program, folder, out, file)
            if state(folder / "a") != before or not (folder / "link").is_symlink():
                return f"  asm --out {out} {file} changed the text: {got}"
            wrong = difference(BAD_USE, got)
            if wrong:
                return f"  asm --out {out} {file}\n{wrong}"
    return None


def same_file_of_any_text(program, folder):
    """So too where FILE is no text, has a fault or has nothing in it, and with the options of `asm`."""
    for content in (b"", b"\xff\n", b"; SPIR-V\n", KERNEL.read_bytes()):
        path = folder / "a"
        path.write_bytes(content)
        before = state(path)
        for words in [], ["--big"], ["--grammar", GRAMMAR]:
            wrong = difference(BAD_USE, assembled(program, folder, "./a", "a", *words))
            if wrong or state(path) != before:
                return f"  {content[:20]}\n{wrong or '  the text was changed'}"
    return None


def before_the_grammar(program, folder):
    """OUT that is FILE: FILE stays under a bad grammar file too, which may be reported first."""
    (folder / "a").write_bytes(TEXT.read_bytes())
    before = state(folder / "a")
    (folder / "refused.json").write_bytes(b"[1")
    for grammar in ("absent.json", "refused.json"):
        got = assembled(program, folder, "a", "a", env=under(folder / grammar))
        if got not in (BAD_USE, NO_FILE, Answer(b"", b"error J1\n", 2)) or state(folder / "a") != before:
            return f"  {grammar}: {got}"
    return None


def like_but_other(program, folder):
    """Files that only look alike are two: equal bytes, an equal name in another folder, a link to nothing."""
    laid_out(folder)
    (folder / "b").write_bytes(TEXT.read_bytes())
    (folder / "in/a").write_bytes(TEXT.read_bytes())
    (folder / "new").symlink_to("made by a link")
    for out in ("b", "in/a", "new", "made", "a2"):
        got = assembled(program, folder, out, "a")
        wrong = difference(DONE, got)
        if wrong or (folder / out).read_bytes() != KERNEL.read_bytes():
            return f"  {out}: {wrong or 'another module'}"
    return None if (folder / "new").is_symlink() else "  the link was replaced"


def streams(program, folder):
    """Standard streams and devices: the input from a file and the output to another, and devices that are both."""
    (folder / "a").write_bytes(TEXT.read_bytes())
    with (folder / "a").open("rb") as file:
        wrong = difference(DONE, assembled(program, folder, "made", "-", stdin=file))
    if wrong or (folder / "made").read_bytes() != KERNEL.read_bytes():
        return wrong or "  another module"
    before = state(folder / "a")
    with (folder / "a").open("rb") as file:
        got = assembled(program, folder, "a", "/dev/stdin", stdin=file)
    wrong = difference(BAD_USE, got)
    return wrong if wrong or state(folder / "a") == before else "  the text was changed by way of /dev/stdin"


def out_as_it_was(program, folder):
    """FILE that does not open or cannot be read: OUT stays as it was, or is not made."""
    out = folder / "out"
    (folder / "folder").mkdir()
    (folder / "loop").symlink_to("loop")
    for file in ("absent", "folder", "a/b", "loop", "", "/proc/self/mem", "x" * 300):
        for is_there in (True, False):
            out.unlink(missing_ok=True)
            if is_there:
                out.write_bytes(BEFORE)
            wrong = difference(NO_FILE, assembled(program, folder, "out", file))
            if wrong or (out.read_bytes() if out.exists() else None) != (BEFORE if is_there else None):
                return f"  {file or 'no name'}: {wrong or '  OUT was touched'}"
    return None


def out_after_the_grammar(program, folder):
    """A grammar file that does not open or cannot be read: OUT stays as it was."""
    out = folder / "out"
    for grammar in (folder / "absent.json", folder):
        out.write_bytes(BEFORE)
        wrong = difference(NO_FILE, assembled(program, folder, "out", TEXT, env=under(grammar)))
        if wrong or out.read_bytes() != BEFORE:
            return f"  {grammar}: {wrong or '  OUT was touched'}"
    return None


def read_whole_first(program, folder):
    """FILE is read whole before OUT is made: while a pipe has not ended, OUT is as it was."""
    pipe, out = folder / "pipe", folder / "out"
    os.mkfifo(pipe)
    out.write_bytes(BEFORE)
    words = [str(program), "asm", "--out", "out", "pipe"]
    how = {"stdout": subprocess.PIPE, "stderr": subprocess.PIPE}
    with subprocess.Popen(words, cwd=folder, env=under(GRAMMAR), **how) as child:
        late = threading.Timer(SECONDS, child.kill)
        late.start()
        with pipe.open("wb", buffering=0) as write:
            text = TEXT.read_bytes()
            write.write(text[:50])
            early = out.read_bytes()
            write.write(text[50:])
        said, err = child.communicate()
        late.cancel()
    got = Answer(said, err, child.returncode)
    wrong = difference(DONE, got)
    if wrong or early != BEFORE:
        return wrong or f"  OUT had {early} while the text came"
    return None if out.read_bytes() == KERNEL.read_bytes() else "  another module was made"


def no_right_to_out(program, folder):
    """OUT that cannot be opened or takes nothing is `error file`, and FILE stays as it is."""
    (folder / "a").write_bytes(TEXT.read_bytes())
    (folder / "folder").mkdir()
    before = state(folder / "a")
    for out in ("folder", "absent/out", "a/out", "", "/dev/full", "x" * 300):
        wrong = difference(NO_FILE, assembled(program, folder, out, "a"))
        if wrong or state(folder / "a") != before:
            return f"  {out or 'no name'}: {wrong or '  the text was changed'}"
    shutil.rmtree(folder / "folder")
    return None


def of_no_module(program, folder):
    """A text with a fault, bytes that are no text, a refused grammar: OUT stays as it was, or is made empty."""
    (folder / "refused.json").write_bytes(b"[1")
    out = folder / "out"
    rows = [
        (b"; SPIR-V\n", GRAMMAR, Answer(b"fault S1 line 2\n", b"", 1)),
        (b"", GRAMMAR, Answer(b"fault S1 line 1\n", b"", 1)),
        (TEXT.read_bytes() + b"OpNothing\n", GRAMMAR, None),
        (b"; SPIR-V\xff\n", GRAMMAR, NO_FILE),
        (TEXT.read_bytes(), folder / "refused.json", Answer(b"", b"error J1\n", 2)),
    ]
    for text, grammar, answer in rows:
        (folder / "a").write_bytes(text)
        for is_there in (True, False):
            out.unlink(missing_ok=True)
            if is_there:
                out.write_bytes(BEFORE)
            before = state(out) if is_there else None
            got = assembled(program, folder, "out", "a", env=under(grammar))
            wrong = difference(answer, got) if answer else (None if got.status == 1 else f"  {got}")
            kept = out.exists() and (state(out) == before if is_there else out.read_bytes() == b"")
            if wrong or not kept or (folder / "a").read_bytes() != text:
                return wrong or f"  {text[:20]}: OUT or the text is not what it must be"
    return None


def of_a_longer_out(program, folder):
    """OUT that was longer than the module has the module alone; and one that cannot be made matters to no fault."""
    (folder / "out").write_bytes(BEFORE * 1000)
    wrong = difference(DONE, assembled(program, folder, "out", TEXT))
    if wrong or (folder / "out").read_bytes() != KERNEL.read_bytes():
        return wrong or "  OUT has more than the module"
    (folder / "a").write_bytes(b"; SPIR-V\n")
    return difference(Answer(b"fault S1 line 2\n", b"", 1), assembled(program, folder, "absent/out", "a"))


def checks():
    """All of these."""
    found = [
        ("OUT that is FILE", same_file),
        ("OUT that is FILE, whatever stands in it", same_file_of_any_text),
        ("OUT that is FILE, and no grammar", before_the_grammar),
        ("files that look alike", like_but_other),
        ("standard streams", streams),
        ("OUT of a FILE that is not read", out_as_it_was),
        ("OUT of a grammar file that is not read", out_after_the_grammar),
        ("FILE read whole first", read_whole_first),
        ("OUT that cannot be made", no_right_to_out),
        ("OUT of no module", of_no_module),
        ("OUT that is made anew", of_a_longer_out),
    ]
    return [Check(f"nothing destroyed: {name}", LAYERS, run_it) for name, run_it in found]
