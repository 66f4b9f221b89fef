"""Several files in one run: a line for each in order, and one bad file costs the others nothing."""

import os
import resource
import signal
import subprocess
import threading

from .common import SECONDS, TESTS, Answer, Check, difference, run, shown
from .refused import NO_MEMORY, each_run, preloaded
from .usage import BAD_USE, BROKEN, GRAMMAR, KERNEL, NO_FILE, TEXT, under

LAYERS = frozenset({"trace", "many files"})
THIN = TESTS / "grammars/thin.json"
LOOP = TESTS / "modules/loop-with-phi.spv"
MANY = 10_000
FEW_OPEN_FILES = 12
SPACE = 1 << 30


def verdict_of(file, program, folder, grammar=GRAMMAR):
    """The verdict on a module alone."""
    return run(program, ["check", file], folder, env=under(grammar)).out.decode().strip()


def placed(folder, **contents):
    """Puts files of these contents into the folder, by names without their `.spv`."""
    for name, content in contents.items():
        (folder / f"{name}.spv").write_bytes(content)
    return [f"{name}.spv" for name in contents]


def lines(*texts):
    """These lines as bytes."""
    return "".join(f"{text}\n" for text in texts).encode()


def checked(program, folder, names, command="check", **how):
    """A run with these files."""
    return run(program, [command, *names], folder, **{"env": under(GRAMMAR), **how})


def limit_space():
    """Holds a process to an address space of 1 GiB, which no module needs."""
    resource.setrlimit(resource.RLIMIT_AS, (SPACE, SPACE))


# Verdicts in order.


def in_order(program, folder):
    """Verdicts in the order of the words, one file twice; 1 for a fault, 0 for none."""
    names = placed(folder, kernel=KERNEL.read_bytes(), broken=BROKEN.read_bytes(), loop=LOOP.read_bytes(), short=b"123")
    fault = verdict_of(BROKEN, program, folder)
    verdicts = dict(zip(names, ["valid", fault, "valid", "fault W2"]))
    order = [names[at] for at in (3, 0, 1, 0, 2)]
    wanted = Answer(lines(*(f"{name}: {verdicts[name]}" for name in order)), b"", 1)
    wrong = difference(wanted, checked(program, folder, order))
    if wrong:
        return wrong
    wanted = Answer(lines("loop.spv: valid", "kernel.spv: valid"), b"", 0)
    return difference(wanted, checked(program, folder, ["loop.spv", "kernel.spv"]))


def one_file(program, folder):
    """With one file the line is the verdict alone, and the error too."""
    wrong = difference(Answer(b"valid\n", b"", 0), checked(program, folder, [KERNEL]))
    return wrong or difference(NO_FILE, checked(program, folder, ["absent.spv"]))


def bad_ones_among(program, folder):
    """An absent file, a folder, one that cannot be read and an empty device: each has its line, as the others."""
    placed(folder, a=KERNEL.read_bytes(), b=BROKEN.read_bytes(), c=LOOP.read_bytes())
    (folder / "folder").mkdir()
    names = ["a.spv", "absent.spv", "b.spv", "folder", "/dev/null", "a.spv/", "c.spv", "/proc/self/mem"]
    fault = verdict_of(BROKEN, program, folder)
    out = ["a.spv: valid", f"b.spv: {fault}", "/dev/null: fault W2"]
    bad = ["absent.spv", "folder", "a.spv/", "/proc/self/mem"]
    wanted = Answer(lines(*out, "c.spv: valid"), lines(*(f"{name}: error file" for name in bad)), 2)
    wrong = difference(wanted, checked(program, folder, names))
    if wrong:
        return wrong
    wanted = Answer(lines("c.spv: valid"), lines("absent.spv: error file"), 2)
    return difference(wanted, checked(program, folder, ["absent.spv", "c.spv"]))


def endless_among(program, folder):
    """A device without an end is a module that is too long, and costs the others nothing."""
    placed(folder, a=KERNEL.read_bytes())
    names = ["/dev/zero", "a.spv", "/dev/full"]
    wanted = lines("/dev/zero: fault W8", "a.spv: valid", "/dev/full: fault W8")
    wrong = difference(Answer(wanted, b"", 1), checked(program, folder, names, preexec_fn=limit_space))
    got = checked(program, folder, names, "explain", preexec_fn=limit_space)
    heads = [line for line in got.out.decode().splitlines() if line.split(":")[0] in names]
    fine = "".join(f"{line}\n" for line in heads).encode() == wanted and (got.err, got.status) == (b"", 1)
    return wrong or (None if fine else f"  explain: {got}")


NAMES = {
    "a b  c.spv": "a b  c.spv",
    "line\nfeed.spv": "line\\x0afeed.spv",
    "tab\tstop": "tab\\x09stop",
    "\x01\x1b[31m\x1f\x7f": "\\x01\\x1b[31m\\x1f\\x7f",
    "back\\slash\\x0a": "back\\\\slash\\\\x0a",
    "größe: valid": "größe: valid",
    "'quoted' \"twice\" $x `y` *": "'quoted' \"twice\" $x `y` *",
    "-x.spv": "-x.spv",
    "--help": "--help",
    "x" * 255: "x" * 255,
}


def names_of_all_kinds(program, folder):
    """Names with spaces, control characters, backslashes and dashes, of files that are there and that are not."""
    for name in NAMES:
        (folder / name).write_bytes(KERNEL.read_bytes())
    wanted = Answer(lines(*(f"{text}: valid" for text in NAMES.values())), b"", 0)
    wrong = difference(wanted, checked(program, folder, ["--", *NAMES]))
    if wrong:
        return wrong
    for name in NAMES:
        (folder / name).unlink()
    wanted = Answer(b"", lines(*(f"{text}: error file" for text in NAMES.values())), 2)
    return difference(wanted, checked(program, folder, ["--", *NAMES]))


def ten_thousand(program, folder):
    """Ten thousand files, with few that may be open at once; each hundredth is not valid."""
    (folder / "kernel").write_bytes(KERNEL.read_bytes())
    (folder / "short").write_bytes(b"123")
    names = [f"{number}.spv" for number in range(MANY)]
    for number, name in enumerate(names):
        os.link(folder / ("kernel" if number % 100 else "short"), folder / name)

    def limit_it():
        resource.setrlimit(resource.RLIMIT_NOFILE, (FEW_OPEN_FILES, FEW_OPEN_FILES))

    got = checked(program, folder, names, preexec_fn=limit_it)
    wanted = [f"{name}: {'valid' if number % 100 else 'fault W2'}" for number, name in enumerate(names)]
    return difference(Answer(lines(*wanted), b"", 1), got)


def explains_each(program, folder):
    """Each part of `explain` begins with the line of its file, and has then the lines of that file alone."""
    placed(folder, a=KERNEL.read_bytes(), b=BROKEN.read_bytes(), c=b"123")
    names = ["b.spv", "a.spv", "absent.spv", "c.spv", "b.spv"]
    parts = [checked(program, folder, [name], "explain").out for name in names]
    if parts[0].count(b"\n") < 4:
        return f"  explain: {shown(parts[0])}"
    named = b"".join(name.encode() + b": " + part for name, part in zip(names, parts) if part)
    wanted = Answer(named, lines("absent.spv: error file"), 2)
    return difference(wanted, checked(program, folder, names, "explain"))


# One after another.


def line_before_next(program, folder):
    """A line is written before the next file is opened: a named pipe that no one has opened yet."""
    pipe = folder / "pipe"
    os.mkfifo(pipe)
    words = [str(program), "check", str(KERNEL), str(pipe), str(KERNEL)]
    with subprocess.Popen(words, cwd=folder, env=under(GRAMMAR), stdout=subprocess.PIPE) as child:
        late = threading.Timer(SECONDS, child.kill)
        late.start()
        first = child.stdout.readline()
        if first:
            pipe.write_bytes(KERNEL.read_bytes())
        rest = child.stdout.read()
        late.cancel()
    wanted = [f"{name}: valid\n".encode() for name in (KERNEL, pipe, KERNEL)]
    got = (first, rest, child.returncode)
    return None if got == (wanted[0], b"".join(wanted[1:]), 0) else f"  {got}"


def grammar_once(program, folder):
    """The grammar file is read once: a pipe gives its bytes to one reader alone."""
    pipe = folder / "grammar"
    os.mkfifo(pipe)
    feeder = threading.Thread(target=pipe.write_bytes, args=(GRAMMAR.read_bytes(),), daemon=True)
    feeder.start()
    names = placed(folder, a=KERNEL.read_bytes(), b=LOOP.read_bytes())
    got = checked(program, folder, names, env=under(pipe))
    return difference(Answer(lines("a.spv: valid", "b.spv: valid"), b"", 0), got)


def grammar_first(program, folder):
    """A grammar file that is absent or refused is reported alone, and no file is looked at."""
    refused = folder / "refused.json"
    refused.write_bytes(b"[1")
    names = ["absent.spv", KERNEL]
    wrong = difference(NO_FILE, checked(program, folder, names, env=under(folder / "absent.json")))
    return wrong or difference(Answer(b"", b"error J1\n", 2), checked(program, folder, names, env=under(refused)))


def pipe_closed_early(program, folder):
    """`head -1` after thousands of files: no line, and the status of a program that SIGPIPE ended."""
    names = [KERNEL] * 5000
    words = [str(program), "check", *map(str, names)]
    with subprocess.Popen(
        words, cwd=folder, env=under(GRAMMAR), stdout=subprocess.PIPE, stderr=subprocess.PIPE
    ) as child:
        late = threading.Timer(SECONDS, child.kill)
        late.start()
        first = child.stdout.readline()
        child.stdout.close()
        err = child.stderr.read()
        late.cancel()
    wanted = (f"{KERNEL}: valid\n".encode(), b"", 128 + signal.SIGPIPE)
    got = (first, err, child.returncode)
    return None if got == wanted else f"  wanted: {wanted}\n  got:    {got}"


def lines_stay_whole(program, folder):
    """Processes side by side, that write into one pipe: each line is whole."""
    read_end, write_end = os.pipe()
    words = [str(program), "check", *([str(KERNEL)] * 500)]
    children = [subprocess.Popen(words, cwd=folder, env=under(GRAMMAR), stdout=write_end) for _ in range(4)]
    os.close(write_end)
    with open(read_end, "rb") as pipe:
        found = pipe.read().splitlines()
    statuses = [child.wait(SECONDS) for child in children]
    wanted = f"{KERNEL}: valid".encode()
    torn = [line for line in found if line != wanted]
    fine = not torn and len(found) == 2000 and statuses == [0] * 4
    return None if fine else f"  {len(found)} lines, torn {torn[:5]}, {statuses}"


def full_output(program, folder):
    """An output that takes nothing ends the run at the first line."""
    with open("/dev/full", "wb") as full:
        got = checked(program, folder, [KERNEL, KERNEL], stdout=full)
    return difference(NO_FILE, got)


def full_error_output(program, folder):
    """Where the line of an error cannot be written, the others are, and the status gives it."""
    with open("/dev/full", "wb") as full:
        ended = subprocess.run(
            [str(program), "check", "absent.spv", str(KERNEL)],
            cwd=folder,
            env=under(GRAMMAR),
            stdout=subprocess.PIPE,
            stderr=full,
            timeout=SECONDS,
            check=False,
        )
    wanted = (f"{KERNEL}: valid\n".encode(), 2)
    got = (ended.stdout, ended.returncode)
    return None if got == wanted else f"  wanted: {wanted}\n  got:    {got}"


def standard_input_among(program, folder):
    """`-` among the files, once; twice is `error use`, and so are several files of other commands."""
    names = placed(folder, a=b"123")
    with KERNEL.open("rb") as file:
        got = checked(program, folder, [*names, "-", *names], stdin=file)
    wrong = difference(Answer(lines("a.spv: fault W2", "-: valid", "a.spv: fault W2"), b"", 1), got)
    (folder / "-").write_bytes(KERNEL.read_bytes())
    wrong = wrong or difference(
        Answer(lines("./-: valid", "-: fault W2", "./-: valid"), b"", 1), checked(program, folder, ["./-", "-", "./-"])
    )
    for command in "check", "explain":
        wrong = wrong or difference(BAD_USE, checked(program, folder, ["-", KERNEL, "-"], command))
        wrong = wrong or difference(BAD_USE, checked(program, folder, ["-", "-"], command))
    return wrong or difference(BAD_USE, checked(program, folder, [TEXT, TEXT, "--out", "made"], "asm"))


# Out of memory.


def told_apart(got, verdicts):
    """The names of which `error memory` was told, where each other has its verdict and the status fits; else None."""
    out, err = got.out.decode().splitlines(), got.err.decode().splitlines()
    lacking = [name for name, _ in verdicts if f"{name}: error memory" in err]
    wanted = [f"{name}: {verdict}" for name, verdict in verdicts if name not in lacking]
    fine = out == wanted and err == [f"{name}: error memory" for name in lacking]
    return lacking if fine and got.status == (2 if lacking else 1) else None


def each_growth_refused(all_later):
    """The check that one growth that is refused, or all from one on, costs at most the file that it was for."""

    def check(program, folder):
        content = KERNEL.read_bytes()
        names = placed(folder, a=content, b=content[:119], c=content, d=content[:40])
        words = ["check", "--grammar", THIN, *names]
        verdicts = [(name, verdict_of(name, program, folder, THIN)) for name in names]
        found = each_run(program, words, folder, preloaded(folder, all_later))
        if not found or found[-1].is_refused or told_apart(found[-1].got, verdicts) != []:
            return f"  none refused at last: {found and found[-1]}"
        lacked = set()
        for it in found:
            lacking = told_apart(it.got, verdicts)
            is_told = lacking is not None and (all_later or len(lacking) <= 1)
            if not is_told and it.got != NO_MEMORY:
                return f"  growth {it.first} refused: {it.got}"
            lacked.update(lacking or ())
        return None if lacked == set(names) else f"  no out of memory was told of {sorted(set(names) - lacked)}"

    return check


def checks():
    """All of these."""
    found = [
        ("in order", in_order),
        ("one alone", one_file),
        ("bad ones among others", bad_ones_among),
        ("endless ones among others", endless_among),
        ("names of all kinds", names_of_all_kinds),
        ("ten thousand", ten_thousand),
        ("explained", explains_each),
        ("a line before the next is opened", line_before_next),
        ("the grammar file once", grammar_once),
        ("the grammar file first", grammar_first),
        ("a pipe that is closed early", pipe_closed_early),
        ("lines of processes side by side", lines_stay_whole),
        ("a full output", full_output),
        ("a full error output", full_error_output),
        ("the standard input among them", standard_input_among),
    ]
    memory = [("each growth refused", False), ("each growth and all later refused", True)]
    tools = frozenset({"cc"})
    return [
        *(Check(f"several files: {name}", LAYERS, run_it) for name, run_it in found),
        *(Check(f"several files: {name}", LAYERS, each_growth_refused(later), tools) for name, later in memory),
    ]
