"""What a long run does now, and how long each part of it took."""
import sys
import threading
import time
from contextlib import contextmanager

# How often the line on a terminal is written anew, in seconds.
PAUSE = 1.0
# Goes to the beginning of the line of a terminal, and clears the line.
CLEAR = "\r\033[K"


def clock(seconds):
    """So many seconds as minutes and seconds: 75 as 1:15."""
    return f"{seconds // 60:.0f}:{seconds % 60:02.0f}"


class Parts:
    """The parts of a run. On a terminal the last line says which parts are under way and since when, and is written anew each second. Elsewhere a
    line says when a part begins."""

    def __init__(self, out=sys.stdout, now=time.monotonic):
        self.out, self.now, self.is_terminal = out, now, out.isatty()
        self.lock, self.begun, self.took = threading.RLock(), {}, []
        if self.is_terminal:
            threading.Thread(target=self.watch, daemon=True).start()

    def under_way(self):
        return ", ".join(f"{what} {clock(self.now() - began)}" for what, began in self.begun.items())

    def watch(self):
        while True:
            with self.lock:
                if self.begun:
                    print(f"{CLEAR}{self.under_way()}", end="\r", file=self.out, flush=True)
            time.sleep(PAUSE)

    def say(self, text):
        """Prints whole lines, above the line of a terminal."""
        with self.lock:
            print(f"{CLEAR if self.is_terminal else ''}{text}", file=self.out, flush=True)

    @contextmanager
    def part(self, what):
        """Counts the time until the end of the block as that of this part."""
        with self.lock:
            self.begun[what] = self.now()
        if not self.is_terminal:
            self.say(f"prove: begins: {what}")
        try:
            yield
        finally:
            with self.lock:
                self.took.append((what, self.now() - self.begun.pop(what)))

    def lines(self):
        """A line for each part that ended, the longest first."""
        for what, seconds in sorted(self.took, key=lambda it: -it[1]):
            yield f"prove: {clock(seconds)} {what}"
