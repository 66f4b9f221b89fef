"""The example corpus.py of the Python bindings: many modules on a local Dask cluster, of which a worker is killed."""

import json
import os
import shutil
import signal
import subprocess
import sys
import time
from functools import lru_cache
from pathlib import Path

from .common import LAYERS as ALL_LAYERS
from .common import TESTS, Check, shown
from .usage import BROKEN, KERNEL, under

LAYERS = frozenset(ALL_LAYERS)
EXAMPLE = TESTS.parent / "bindings/python/examples/corpus.py"
COUNT = 2_000
BATCH = 20
WORKERS = 2
SECONDS = 300
# What begins a cluster, tells its address and the process of its first worker, and ends it when its input ends.
CLUSTER = """
import sys
from distributed import LocalCluster

if __name__ == "__main__":
    with LocalCluster(n_workers=%d, threads_per_worker=1, dashboard_address=None) as cluster:
        print(cluster.scheduler_address, *(worker.pid for worker in cluster.workers.values()), flush=True)
        sys.stdin.read()
"""


@lru_cache(maxsize=1)
def interpreter():
    """A Python that has Dask's distributed, or None."""
    for word in (sys.executable, shutil.which("python3"), "/usr/bin/python3"):
        asked = [word, "-c", "import distributed"]
        if word and subprocess.run(asked, capture_output=True, check=False).returncode == 0:
            return word
    return None


def missing():
    """Why there is no cluster, or None."""
    return (
        None if interpreter() else "there is no Python with Dask's distributed (Debian's package python3-distributed)"
    )


def laid_out(folder):
    """The modules: valid ones, some broken, one that is cut, one that is absent."""
    names = []
    for number in range(COUNT):
        path = folder / f"m/{number:04}.spv"
        path.parent.mkdir(exist_ok=True)
        path.write_bytes((BROKEN if number % 7 == 3 else KERNEL).read_bytes()[: 18 if number == 100 else None])
        names.append(str(path))
    names.insert(1_500, str(folder / "absent.spv"))
    (folder / "list").write_text("".join(f"{name}\n" for name in names), encoding="utf-8")
    return names


def run_example(program, folder, *words, while_it_runs=lambda _out: None):
    """What the example writes, and how it ends. While it runs something is done with the file that it writes to."""
    out, err = folder / "out", folder / "err"
    command = [interpreter(), str(EXAMPLE), "--spv", str(program), "--batch", str(BATCH), *map(str, words)]
    with out.open("wb") as lines, err.open("wb") as said:
        with subprocess.Popen(
            command, cwd=folder, stdin=subprocess.DEVNULL, stdout=lines, stderr=said, env=under()
        ) as child:
            while_it_runs(out)
            child.wait(SECONDS)
    return out.read_bytes(), child.returncode


def killed(pid):
    """The function that kills a process once a tenth of the lines are there."""

    def wait_and_kill(out: Path):
        end = time.monotonic() + SECONDS
        while out.read_bytes().count(b"\n") < COUNT // 10 and time.monotonic() < end:
            time.sleep(0.01)
        os.kill(pid, signal.SIGKILL)

    return wait_and_kill


def with_a_worker_killed(program, folder):
    """The lines are those of one `spv check --json` of all names, in their order, although a worker dies midway."""
    names = laid_out(folder)
    one = subprocess.run(
        [str(program), "check", "--json", *names], capture_output=True, env=under(), timeout=SECONDS, check=False
    )
    (folder / "cluster.py").write_text(CLUSTER % WORKERS, encoding="utf-8")
    begun = [interpreter(), str(folder / "cluster.py")]
    with subprocess.Popen(
        begun, cwd=folder, stdin=subprocess.PIPE, stdout=subprocess.PIPE, stderr=subprocess.DEVNULL
    ) as cluster:
        address, *pids = cluster.stdout.readline().decode().split()
        words = ["--scheduler", address, "--list", folder / "list"]
        out, status = run_example(program, folder, *words, while_it_runs=killed(int(pids[0])))
        cluster.stdin.close()
        cluster.wait(SECONDS)
    if (out, status) != (one.stdout, one.returncode):
        return f"  exit {status}, and not {one.returncode}\n  wanted: {shown(one.stdout)}\n  got:    {shown(out)}"
    verdicts = [json.loads(line)["verdict"] for line in out.splitlines()]
    return None if verdicts.count("error") == 1 and len(verdicts) == COUNT + 1 else f"  {len(verdicts)} objects"


def with_its_own_cluster(program, folder):
    """Without a scheduler it begins a cluster, takes a folder's modules in order, and answers 0 where all are valid."""
    place = folder / "modules/inner"
    place.mkdir(parents=True)
    for number in range(30):
        (place / f"{number:02}.spv").write_bytes(KERNEL.read_bytes())
    (place / "text.txt").write_text("no module", encoding="utf-8")
    out, status = run_example(program, folder, "--workers", WORKERS, folder / "modules")
    names = [json.loads(line)["file"] for line in out.splitlines()]
    fine = status == 0 and names == [str(place / f"{number:02}.spv") for number in range(30)]
    return None if fine else f"  exit {status}: {names} {shown((folder / 'err').read_bytes())}"


def checks():
    """Both."""
    tools = frozenset({"distributed"})
    return [
        Check("corpus: a worker is killed", LAYERS, with_a_worker_killed, tools),
        Check("corpus: its own cluster", LAYERS, with_its_own_cluster, tools),
    ]
