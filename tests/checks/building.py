"""./build with a stand-in for the toolchain's command, in a repository of three empty crates: what it tells.

The stand-in prints lines as `rt ci` does, makes a crate's folder out/ when it begins with it, and leaves a program.
"""

import os
import pty
import re
import shutil
import subprocess

from .common import TESTS, Check, joined, shown

TOP = TESTS.parent
CRATES = {"spv_words": "byteorder", "spv_table": "spv_words", "spv": "spv_table"}
# A folder of commands without the toolchain's.
PLAIN_PATH = "/usr/bin:/bin"
STAND_IN = r"""#!/bin/sh
case $1 in ci) ;; *) exit 2 ;; esac
[ ! -e crates/spv_words/must-fail ] && [ -e crates/spv_words/src/lib.rt ] && [ -e HANDLES ] || exit 2
mkdir crates/spv_words/out
if [ "$STAND_IN" = fails ]; then
    echo '== spv_words'
    echo 'logic=proved functions=3 sum=5'
    echo 'rt: spv_words proved'
else
    echo 'rt: spv_words is kept: an earlier run on this machine proved the same files over the same libraries'
fi
mkdir crates/spv_table/out
sleep 2
echo '== spv_table'
echo 'fn spv_table::names::place: proved'
if [ "$STAND_IN" = fails ]; then
    echo 'fn spv_table::table::entry: not proved'
    echo 'rt: spv_table NOT PROVED'
    echo 'rt: spv NOT PROVED: its library spv_table failed'
    echo '1 passed, 2 failed'
    exit 1
fi
echo 'logic=proved functions=1 sum=5'
echo 'rt: spv_table proved'
mkdir crates/spv/out
sleep 1
echo '== spv'
echo 'logic=proved functions=2 sum=5'
echo 'rt: spv proved'
echo built >crates/spv/out/spv
echo 'rt: ok; handles allowed: none'
echo '3 passed, 0 failed'
"""
PROVED = [
    r"== what rt ci prints: (\S+)",
    r"== 3 crates, 2 side by side",
    r" 1 of 3  spv_words {15}kept  \(0 min, about \d more\)",
    r" 2 of 3  spv_table {15}proved in 0:0[1-4]  \(0 min, about \d more\)",
    r" 3 of 3  spv {21}proved in 0:0[0-3]  \(0 min, about 0 more\)",
    r"== built in \d+ s:",
    r"crates/spv/out/spv",
]
REFUSED = [
    *PROVED[:2],
    r" 1 of 3  spv_words {15}proved in 0:0[0-2]  \(0 min, about \d more\)",
    r" 2 of 3  spv_table {15}NOT PROVED  \(0 min, about \d more\)",
    r" 3 of 3  spv {21}NOT PROVED  \(0 min, about 0 more\)",
    r"== spv_table",
    r"fn spv_table::table::entry: not proved",
    r"rt: spv_table NOT PROVED",
]
# What install/archive does in the place of the toolchain: it waits, and makes the archive or does not.
ARCHIVE = r"""#!/bin/sh
sleep 1
[ "$STAND_IN" != "no archive" ] || { echo "no archive for you"; exit 1; }
mkdir -p "$1/out"
echo built >"$1/out/libspvk.a"
echo built >"$1/out/spvk.o"
"""
WITH_ARCHIVE = [
    *(line.replace(" of 3", " of 4").replace("about 0", r"about \d") for line in PROVED[:-2]),
    r" 4 of 4  libspvk\.a {15}made in 0:0[0-3]  \(0 min, about 0 more\)",
    *PROVED[-2:],
    r"out/libspvk\.a",
    r"out/spvk\.o",
]
# What out/proved has but for the checksums: the crate that was kept has no line, since no earlier run here proved it.
LAST_LINES = "spv_table logic=proved functions=1 sum=5\nspv logic=proved functions=2 sum=5\n"
# The archive's name among the crates.
ARCHIVE_NAME = "libspvk.a"
# What begins a line of the terminal anew.
OVER = "\r\x1b[K"


def repository(folder, seconds):
    """A repository with these crates and the lines of install/seconds, and the stand-in beside it."""
    top = folder / "top"
    for name in CRATES:
        for part in ("src", "must-fail"):
            (top / "crates" / name / part).mkdir(parents=True)
        (top / "crates" / name / "src/lib.rt").touch()
    (top / "crates.txt").write_text("".join(f"{name}: {uses}\n" for name, uses in CRATES.items()), encoding="utf-8")
    shutil.copy(TOP / "HANDLES", top)
    shutil.copy(TOP / "build", top)
    (top / "install").mkdir()
    for name in ("progress.awk", "proved"):
        shutil.copy(TOP / "install" / name, top / "install")
    (top / "install/seconds").write_text(seconds, encoding="utf-8")
    (top / "install/archive").write_text(ARCHIVE, encoding="utf-8")
    (top / "install/archive").chmod(0o755)
    (folder / "commands").mkdir()
    stand_in = folder / "commands/rt"
    stand_in.write_text(STAND_IN, encoding="utf-8")
    stand_in.chmod(0o755)
    return top


def environment(folder, way=""):
    """The environment of a run in which the stand-in goes this way; what the script makes lies in the folder."""
    path = f"{folder / 'commands'}:{PLAIN_PATH}"
    return {**os.environ, "PATH": path, "STAND_IN": way, "TMPDIR": str(folder), "RT_JOBS": "2", "TERM": "xterm"}


def told(folder, words, way="", seconds="spv_words 100\nspv_table 2\n"):
    """What the script prints on both outputs and how it ends."""
    top = repository(folder, seconds)
    said, status = joined([top / "build", *words], folder, env=environment(folder, way))
    return said.decode(), status


def differing(said, lines):
    """None if a text has these lines, each of which is a pattern, and no other."""
    if re.fullmatch("".join(f"{it}\n" for it in lines), said):
        return None
    return f"  wanted: {lines}\n  got:    {shown(said)}"


def proves(_, folder):
    """A line for each crate, and the program."""
    said, status = told(folder, [])
    wrong = differing(said, PROVED)
    if wrong or status:
        return wrong or f"  exit {status}"
    if (folder / "top/crates/spv/out/spv").read_text(encoding="utf-8") != "built\n":
        return "  the program is not the one that was built"
    lines = (folder / "top/out/proved").read_text(encoding="utf-8")
    if re.sub(r" [0-9a-f]{64} ", " ", lines) != LAST_LINES:
        return f"  out/proved has: {lines}"
    log = re.match(PROVED[0], said).group(1)
    with open(log, encoding="utf-8") as file:
        last = file.read().splitlines()[-1]
    return None if last == "3 passed, 0 failed" else f"  {log} ends with: {last}"


def archives(_, folder):
    """A line for the archive too, which is made when all is proved; what its making prints goes to the file."""
    said, status = told(folder, ["program", "library"], seconds="spv_words 100\nspv_table 2\nlibspvk.a 3\n")
    wrong = differing(said, WITH_ARCHIVE)
    return wrong or (f"  exit {status}" if status or not (folder / "top/out/spvk.o").exists() else None)


def archives_not(_, folder):
    """An archive that is not made: the end of what was printed, no library, and what was proved is kept."""
    said, status = told(folder, ["program", "library"], way="no archive")
    lines = said.splitlines()
    is_told = re.match(r" 4 of 4  libspvk\.a +NOT MADE ", lines[5]) and lines[-1] == "no archive for you"
    is_kept = "spv_table" in (folder / "top/out/proved").read_text(encoding="utf-8")
    if status != 1 or not is_told or not is_kept or (folder / "top/out/libspvk.a").exists():
        return f"  got: {shown(said)}, exit {status}"
    return None


def knows_sources(_, folder):
    """A second run knows which crates an earlier one found proved, but for those that have changed since."""
    told(folder, [])
    top = folder / "top"
    (top / "crates/spv_table/src/lib.rt").write_text("// changed\n", encoding="utf-8")
    said, status = joined([top / "install/proved", "--same"], folder)
    return None if (said, status) == (b"spv_words\nspv\n", 0) else f"  got: {said}, exit {status}"


# How many minutes are left


def of_repository():
    """The crates of the program and the library with those below each, and the seconds of install/seconds."""
    rows = [line.split("#")[0].split(":") for line in (TOP / "crates.txt").read_text(encoding="utf-8").splitlines()]
    uses = {row[0].split()[0]: row[1].split() for row in rows if len(row) == 2}
    due, found = ["spv", "spvk"], {}
    while due:
        name = due.pop()
        if name in uses and name not in found:
            found[name] = [it for it in uses[name] if it in uses]
            due += found[name]
    words = [line.split() for line in (TOP / "install/seconds").read_text(encoding="utf-8").splitlines()]
    return found, {row[0]: int(row[1]) for row in words if len(row) == 2}


def built_by(uses, takes, jobs, archive):
    """What happens while crates are proved, as rt begins them: the longest chain first. Lines `begun NAME` and their
    times, the last for the archive."""
    def chain(name):
        return takes[name] + max([chain(it) for it in uses if name in uses[it]], default=0)

    lengths = {name: chain(name) for name in uses}
    now, under_way, ended, events = 0, {}, set(), []
    while len(ended) < len(uses):
        ready = [it for it in uses if it not in ended and it not in under_way and ended >= set(uses[it])]
        for name in sorted(ready, key=lambda it: -lengths[it])[: jobs - len(under_way)]:
            under_way[name] = now + takes[name]
            events.append((now, "begun", name))
        now = min(under_way.values())
        for name in [it for it in under_way if under_way[it] == now]:
            del under_way[name]
            ended.add(name)
            events.append((now, "ended", name))
    return [*events, (now, "begun", ARCHIVE_NAME), (now + archive, "ended", ARCHIVE_NAME)]


def minutes_left(place, now, lines):
    """The minutes that install/progress.awk tells at some time, of what has happened."""
    (place / "past").write_text("".join(f"{line}\n" for line in lines), encoding="utf-8")
    (place / "news").write_text("", encoding="utf-8")
    words = ["awk", "-v", f"now={now}", "-v", "jobs=4", "-v", f"archive={ARCHIVE_NAME}"]
    words += ["-f", TOP / "install/progress.awk", "reads=seconds", TOP / "install/seconds"]
    for name in ("crates", "same", "past", "news"):
        words += [f"reads={name}", place / name]
    said, _ = joined(words, place)
    return int(re.search(rb"about (\d+) more", said)[1])


def right_within_a_half(place, changed, pace, knows):
    """None if the minutes told, from the first crate's end on, are right within a half, or within two minutes, where
    these crates have changed, all others but those above them are kept, and the machine takes `pace` times as long."""
    uses, seconds = of_repository()
    anew = set(changed)
    while more := {name for name in uses if anew & set(uses[name])} - anew:
        anew |= more
    takes = {name: int(seconds[name] * pace) + len(name) % 7 if name in anew else 1 for name in uses}
    (place / "crates").write_text("".join(f"{it}: {' '.join(uses[it])}\n" for it in uses), encoding="utf-8")
    (place / "same").write_text("".join(f"{it}\n" for it in uses if knows and it not in changed), encoding="utf-8")
    events = built_by(uses, takes, 4, int(seconds[ARCHIVE_NAME] * pace))
    end, lines = events[-1][0], []
    for now, what, name in events:
        how = "made" if name == ARCHIVE_NAME else "proved" if name in anew else "kept"
        lines.append(f"{what if what == 'begun' else how} {name} {now}")
        if what == "ended":
            left, minutes = (end - now) / 60, minutes_left(place, now, lines)
            if abs(minutes - left) > max(left / 2, 2):
                return f"  {changed} changed: after {now} s of {end} {minutes} minutes are told, {left:.1f} are left"
    return None


def tells_minutes(_, folder):
    """The minutes told are right: from nothing, on a machine of another pace, and where crates are kept."""
    uses, _ = of_repository()
    rows = [
        ([it for it in uses if not uses[it]], 1, False),
        ([it for it in uses if not uses[it]], 2.5, False),
        ([], 1, True),
        ([], 1, False),
        (["spv_commands"], 1, True),
        (["spv_ops", "spv_command_line"], 1.5, True),
        (["spv_layout"], 0.7, True),
        (["spvk"], 1, True),
    ]
    return next(filter(None, (right_within_a_half(folder, *row) for row in rows)), None)


def refuses(_, folder):
    """A crate that is not proved: the end of what was printed of it, and no program; what was proved is kept."""
    said, status = told(folder, ["program"], way="fails")
    if status != 1 or (folder / "top/crates/spv/out").exists():
        return f"  exit {status}, or there is a program"
    lines = (folder / "top/out/proved").read_text(encoding="utf-8")
    if re.sub(r" [0-9a-f]{64} ", " ", lines) != "spv_words logic=proved functions=3 sum=5\n":
        return f"  out/proved has: {lines}"
    return differing(said, REFUSED)


def knows_no_times(_, folder):
    """Without a list of times nothing is reported of what is left."""
    said, status = told(folder, [], seconds="# of no crate\n")
    wanted = [it.replace(r", about \d more", "").replace(", about 0 more", "") for it in PROVED]
    return differing(said, wanted) or (f"  exit {status}" if status else None)


def prints_all(_, folder):
    """With -v the toolchain's lines and no others, but the last two."""
    said, status = told(folder, ["-v", "program"])
    lines = said.splitlines()
    is_whole = lines[0].startswith("rt: spv_words is kept") and lines[-3] == "3 passed, 0 failed" and not status
    return None if is_whole and lines[-1] == "crates/spv/out/spv" else f"  got: {shown(said)}, exit {status}"


def lacks_the_toolchain(_, folder):
    """Without the toolchain's command it is told which one is needed."""
    top = repository(folder, "")
    said, status = joined([top / "build"], folder, env={**environment(folder), "PATH": PLAIN_PATH})
    wanted = rb"build: there is no rt on the PATH: the toolchain rattle-kit-\w+ is needed \(README.md, .*\)\n"
    return None if status == 1 and re.fullmatch(wanted, said) else f"  got: {shown(said)}, exit {status}"


def refuses_words(_, folder):
    """Words that are none of the usage."""
    said, status = told(folder, ["programs"])
    return None if status == 2 and said.startswith("usage: ") else f"  got: {shown(said)}, exit {status}"


def on_a_terminal(_, folder):
    """On a terminal a last line says what is under way, and is written over; the lines of the crates stay."""
    top = repository(folder, "spv_table 2\n")
    ours, theirs = pty.openpty()
    with subprocess.Popen([top / "build"], cwd=folder, env=environment(folder), stdin=theirs, stdout=theirs) as ended:
        os.close(theirs)
        said = b""
        try:
            while part := os.read(ours, 4096):
                said += part
        except OSError:
            pass
    os.close(ours)
    text = said.decode().replace("\r\n", "\n")
    under_way = re.search(r"\x1b\[K 1 of 3  \(0 min, about \d more\)  spv_table 0:0\d" + re.escape(OVER), text)
    left = "\n".join(line.rpartition(OVER)[2] for line in text.split("\n"))
    wrong = differing(left, PROVED)
    if ended.returncode or wrong or not under_way:
        return wrong or f"  got: {shown(text)}, exit {ended.returncode}"
    return None


def checks():
    """The checks of ./build."""
    rows = [
        ("a line for each crate", proves),
        ("a crate that is not proved", refuses),
        ("the archive", archives),
        ("an archive that is not made", archives_not),
        ("the crates that are the same", knows_sources),
        ("the minutes that are left", tells_minutes),
        ("no times known", knows_no_times),
        ("all that the toolchain prints", prints_all),
        ("no toolchain", lacks_the_toolchain),
        ("other words", refuses_words),
        ("on a terminal", on_a_terminal),
    ]
    return [Check(f"./build: {name}", frozenset(), run) for name, run in rows]
