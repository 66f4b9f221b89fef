"""Hostile use that no file shows: endless input, outputs that take nothing, files that are none."""

import os
import signal
import subprocess
import threading
import time

from .common import SECONDS, TESTS, Answer, Check, difference, run

KERNEL = TESTS / "modules/smallest-kernel.spv"
GRAMMAR = TESTS / "profile.json"
VALID = Answer(b"valid\n", b"", 0)
TOO_LONG = Answer(b"fault W8\n", b"", 1)
NO_FILE = Answer(b"", b"error file\n", 2)
UNREAD = Answer(b"", b"", 128 + signal.SIGPIPE)


def check_words(file=KERNEL, grammar=GRAMMAR):
    """The words of `spv check`."""
    return ["check", "--grammar", grammar, file]


def feed(write_end, pieces, pause):
    """Writes the pieces one by one into a pipe, until no one reads them."""
    try:
        for content in pieces:
            os.write(write_end, content)
            time.sleep(pause)
    except BrokenPipeError:
        pass
    finally:
        os.close(write_end)


def piped(program, folder, pieces, pause=0.0):
    """`spv check` of its standard input, a pipe that is fed these pieces."""
    read_end, write_end = os.pipe()
    feeder = threading.Thread(target=feed, args=(write_end, pieces, pause))
    feeder.start()
    try:
        return run(program, check_words("/dev/stdin"), folder, stdin=read_end)
    finally:
        os.close(read_end)
        feeder.join()


def endless():
    """Zero bytes without end."""
    while True:
        yield bytes(65536)


def endless_file(program, folder):
    return difference(TOO_LONG, run(program, check_words("/dev/zero"), folder))


def endless_pipe(program, folder):
    return difference(TOO_LONG, piped(program, folder, endless()))


def endless_named_pipe(program, folder):
    path = folder / "pipe"
    os.mkfifo(path)
    opened = lambda: feed(os.open(path, os.O_WRONLY), endless(), 0.0)  # noqa: E731
    feeder = threading.Thread(target=opened, daemon=True)
    feeder.start()
    return difference(TOO_LONG, run(program, check_words(path), folder))


def in_pieces(size):
    """The smallest kernel through a pipe, this many bytes at a time."""

    def check(program, folder):
        content = KERNEL.read_bytes()
        pieces = [content[at : at + size] for at in range(0, len(content), size)]
        return difference(VALID, piped(program, folder, pieces, 0.002))

    return check


def full_output(program, folder):
    with open("/dev/full", "wb") as full:
        got = run(program, check_words(), folder, stdout=full)
    return difference(NO_FILE, got)


def full_output_of_a_fault(program, folder):
    path = folder / "short.spv"
    path.write_bytes(b"\0" * 19)
    with open("/dev/full", "wb") as full:
        got = run(program, check_words(path), folder, stdout=full)
    return difference(NO_FILE, got)


def closed_pipe(program, folder):
    read_end, write_end = os.pipe()
    os.close(read_end)
    try:
        got = run(program, check_words(), folder, stdout=write_end)
    finally:
        os.close(write_end)
    return difference(UNREAD, got)


def both_outputs_full(program, folder):
    """The error line can't be written either; the exit status still gives it."""
    with open("/dev/full", "wb") as full:
        ended = subprocess.run(
            [str(program), *map(str, check_words())],
            cwd=folder,
            stdout=full,
            stderr=full,
            timeout=SECONDS,
            check=False,
        )
    return None if ended.returncode == 2 else f"  wanted: exit 2\n  got:    exit {ended.returncode}"


def without_file(program, folder):
    return difference(NO_FILE, run(program, check_words("absent.spv"), folder))


def without_grammar(program, folder):
    return difference(NO_FILE, run(program, check_words(grammar="absent.json"), folder))


def folder_as_file(program, folder):
    return difference(NO_FILE, run(program, check_words(folder), folder))


def folder_as_grammar(program, folder):
    return difference(NO_FILE, run(program, check_words(grammar=folder), folder))


def refused_grammar(folder):
    """A grammar file that is no JSON."""
    path = folder / "refused.json"
    path.write_bytes(b"[1")
    return path


def missing_file_before_refused_grammar(program, folder):
    words = check_words("absent.spv", refused_grammar(folder))
    return difference(NO_FILE, run(program, words, folder))


def refused_grammar_before_failed_read(program, folder):
    words = check_words(folder, refused_grammar(folder))
    return difference(Answer(b"", b"error J1\n", 2), run(program, words, folder))


def file_of_no_bytes(program, folder):
    return difference(Answer(b"fault W2\n", b"", 1), run(program, check_words("/dev/null"), folder))


def help_is_printed(program, folder):
    got = run(program, ["--help"], folder)
    fine = got.status == 0 and got.out and not got.err
    return None if fine else f"  wanted: a text, exit 0\n  got:    {got}"


def checks():
    """All of these. Each needs the first path alone."""
    found = [
        ("endless-file", endless_file),
        ("endless-pipe", endless_pipe),
        ("endless-named-pipe", endless_named_pipe),
        *((f"pieces-of-{size}-bytes", in_pieces(size)) for size in (1, 3, 4, 7, 120)),
        ("full-output", full_output),
        ("full-output-of-a-fault", full_output_of_a_fault),
        ("output-that-no-one-reads", closed_pipe),
        ("both-outputs-full", both_outputs_full),
        ("file-that-is-absent", without_file),
        ("grammar-that-is-absent", without_grammar),
        ("folder-as-file", folder_as_file),
        ("folder-as-grammar", folder_as_grammar),
        ("missing-file-before-refused-grammar", missing_file_before_refused_grammar),
        ("refused-grammar-before-failed-read", refused_grammar_before_failed_read),
        ("file-of-no-bytes", file_of_no_bytes),
        ("help", help_is_printed),
    ]
    return [Check(f"hostile: {name}", frozenset({"first path"}), run_it) for name, run_it in found]
