"""Checks all modules of folders on a Dask cluster, and writes a JSON object for each, in the order of the names.

usage: python3 corpus.py [OPTION..] [PATH..]

PATH                 a module, or a folder, of which all files whose name ends in .spv are taken
--list FILE          a file with a name on each line, as PATH; `-` is the standard input
--scheduler ADDRESS  a cluster that runs, as tcp://host:8786; without it one of processes on this machine is begun
--workers N          how many processes that has (one for each processor)
--batch N            how many modules go to one process of spv (500)
--spv PROGRAM        the program (spv), which each worker must find
--as-1.6             take modules of version 1.0 to 1.5 as ones of 1.6
--extended           look at extended instructions whole

Each batch is judged by one `spv check --json`, so the grammar is made once a batch. A worker that dies costs nothing
but time: its batches are judged anew by another one. A file that cannot be read has its object, with `error`. The
lines are those of one `spv check --json` of all the names. How far it is stands on standard error.

Exit status 0 if all are valid, 1 if one is not, 2 if one was not judged. It needs Dask's `distributed` (Debian's
package python3-distributed), and a folder of files that all workers see.
"""

import argparse
import importlib
import subprocess
import sys
from pathlib import Path
from typing import Any, Dict, Iterable, Iterator, List, Sequence, Tuple

# Dask's types are not the same in all its versions.
distributed: Any = importlib.import_module("distributed")

Judged = Tuple[int, bytes]


def judged(program: str, flags: Sequence[str], names: Sequence[str]) -> Judged:
    """Judges some modules on a worker: the exit status, and a line for each. Raises where the program itself fails."""
    ended = subprocess.run([program, "check", "--json", *flags, "--", *names], stdout=subprocess.PIPE, check=False)
    lines = ended.stdout.count(b"\n")
    if ended.returncode not in (0, 1, 2) or lines != len(names):
        raise RuntimeError(f"{program} answered {lines} lines for {len(names)} modules, exit status {ended.returncode}")
    return ended.returncode, ended.stdout


def modules_of(paths: Iterable[str]) -> Iterator[str]:
    """The names of the modules: a file as it is named, and of a folder all below it, in order."""
    for path in paths:
        if Path(path).is_dir():
            yield from sorted(str(it) for it in Path(path).rglob("*.spv"))
        else:
            yield path


def named_in(path: str) -> List[str]:
    """The names that a list has, one a line."""
    text = sys.stdin.read() if path == "-" else Path(path).read_text(encoding="utf-8")
    return [line for line in text.split("\n") if line]


def tell(done: int, count: int) -> None:
    """Says how far it is, on a terminal in one line."""
    if sys.stderr.isatty():
        filled = 40 * done // max(count, 1)
        end = "\n" if done == count else ""
        print(
            f"\r[{'#' * filled}{' ' * (40 - filled)}] {done} of {count} modules", end=end, file=sys.stderr, flush=True
        )


def check(client: Any, program: str, flags: Sequence[str], names: Sequence[str], batch: int) -> int:
    """Judges all modules, writes their lines in order, each as soon as all before it are there, and answers the
    greatest exit status."""
    batches = [names[at : at + batch] for at in range(0, len(names), batch)]
    futures = [client.submit(judged, program, flags, it, pure=False, retries=3) for it in batches]
    place = {future.key: at for at, future in enumerate(futures)}
    kept: Dict[int, Judged] = {}
    status = written = done = 0
    for future in distributed.as_completed(futures):
        kept[place[future.key]] = future.result()
        done += len(batches[place[future.key]])
        tell(done, len(names))
        while written in kept:
            found, lines = kept.pop(written)
            sys.stdout.buffer.write(lines)
            sys.stdout.buffer.flush()
            status, written = max(status, found), written + 1
    return status


def main() -> int:
    """Does what the words ask, and answers the exit status."""
    parser = argparse.ArgumentParser(description=(__doc__ or "").splitlines()[0])
    parser.add_argument("--scheduler")
    parser.add_argument("--workers", type=int)
    parser.add_argument("--batch", type=int, default=500)
    parser.add_argument("--spv", default="spv")
    parser.add_argument("--as-1.6", dest="as_1_6", action="store_true")
    parser.add_argument("--extended", action="store_true")
    parser.add_argument("--list")
    parser.add_argument("paths", nargs="*", metavar="PATH")
    words = parser.parse_args()
    names = list(modules_of([*words.paths, *(named_in(words.list) if words.list else [])]))
    flags = [*["--as-1.6"] * words.as_1_6, *["--extended"] * words.extended]
    if words.scheduler:
        with distributed.Client(words.scheduler) as client:
            return check(client, words.spv, flags, names, words.batch)
    with distributed.LocalCluster(n_workers=words.workers, threads_per_worker=1, dashboard_address=None) as cluster:
        with distributed.Client(cluster) as client:
            return check(client, words.spv, flags, names, words.batch)


if __name__ == "__main__":
    sys.exit(main())
