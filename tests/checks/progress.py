"""How far the checks are: on a terminal in a last line that is written over, elsewhere in a line now and then."""

import shutil
import sys
import time

# How many seconds pass between two lines where there is no terminal.
PAUSE = 30
# What begins a line of a terminal anew.
OVER = "\r\x1b[K"


def clock(seconds):
    """Seconds as minutes and seconds."""
    return f"{int(seconds) // 60}:{int(seconds) % 60:02d}"


class Progress:
    """Counts the checks that have ended, and shows how many are left."""

    def __init__(self, count, out=sys.stdout):
        self.count, self.out = count, out
        self.ended = self.failed = 0
        self.began = self.told = time.monotonic()
        self.under_way = {}
        self.is_terminal = out.isatty()

    def begins(self, name):
        """A check begins."""
        self.under_way[name] = time.monotonic()

    def ends(self, name, wrong):
        """A check has ended; what went wrong, if anything, is printed."""
        self.under_way.pop(name, None)
        self.ended += 1
        if wrong is not None:
            self.failed += 1
            self.say(f"FAILED {name}\n{wrong}")
        self.tell()

    def far(self):
        """How far the checks are."""
        passed = clock(time.monotonic() - self.began)
        return f"{self.ended} of {self.count} checks in {passed}" + (f", {self.failed} failed" if self.failed else "")

    def longest(self):
        """The check that has been under way for longest, with its time."""
        names = sorted(self.under_way.copy().items(), key=lambda it: it[1])
        return f"  {names[0][0]} {clock(time.monotonic() - names[0][1])}" if names else ""

    def tell(self):
        """Tells how far the checks are, where it is time to."""
        now = time.monotonic()
        if self.is_terminal:
            width = shutil.get_terminal_size().columns - 1
            print(f"{OVER}{(self.far() + self.longest())[:width]}", end="", file=self.out, flush=True)
        elif now - self.told >= PAUSE and self.ended < self.count:
            self.told = now
            print(f"{self.far()}{self.longest()}", file=self.out, flush=True)

    def say(self, text):
        """Prints lines that stay."""
        print(f"{OVER if self.is_terminal else ''}{text}", file=self.out, flush=True)

    def close(self):
        """Takes the last line of a terminal away."""
        if self.is_terminal:
            print(OVER, end="", file=self.out, flush=True)
