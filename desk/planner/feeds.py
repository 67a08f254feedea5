"""Lines of several sources at once, each as soon as it comes: standard input, files, pipes and devices."""

import os
import queue
import stat
import sys
import threading

from planner.faults import Fault, say, told_by_system
from planner.output import ENCODING
from planner.typed import is_terminal

# What a source says after its last line.
OVER = None
# So often it is looked whether there is something to do while no line comes (seconds).
IDLE = 0.5


class Feeds:
    """Sources that are read side by side, each by a thread that waits for it."""

    def __init__(self, paths, is_typed):
        self.queue, self.is_prompted = queue.Queue(maxsize=1000), False
        self.sources = [(path, opened(path)) for path in paths]
        if is_typed:
            self.sources.append(("standard input", sys.stdin.fileno()))

    def __enter__(self):
        for path, file in self.sources:
            threading.Thread(target=self.read, args=(path, file), daemon=True).start()
        return self

    def __exit__(self, *_):
        # Threads that still wait for a line end with the process.
        pass

    def read(self, path, file):
        """Hands on the lines of a source. A pipe with a name is waited for until somebody writes into it."""
        try:
            file = os.open(path, os.O_RDONLY) if file is None else file
            rest = b""
            while data := os.read(file, 65536):
                *whole, rest = (rest + data).split(b"\n")
                for line in whole:
                    self.queue.put(line.decode(**ENCODING))
            if rest:
                self.queue.put(rest.decode(**ENCODING))
        except OSError as why:
            self.queue.put(Fault(f"{path}: {told_by_system(why)}"))
        self.queue.put(OVER)

    def lines(self, idle):
        """The lines of all sources, until each is over. While none comes `idle` is called now and then."""
        going = len(self.sources)
        while going:
            if self.queue.empty():
                self.prompt()
            try:
                line = self.queue.get(timeout=IDLE)
            except queue.Empty:
                idle()
                continue
            self.is_prompted = False
            if line is OVER:
                going -= 1
            elif isinstance(line, Fault):
                say(line)
            else:
                yield line

    def prompt(self):
        """Shows somebody at the terminal that a line can be typed, once for each."""
        if is_terminal() and not self.is_prompted:
            print("> ", end="", flush=True)
            self.is_prompted = True


def opened(path):
    """A source that is open; None of a pipe with a name, whose opening waits for a writer."""
    try:
        if stat.S_ISFIFO(os.stat(path).st_mode):
            return None
        return os.open(path, os.O_RDONLY)
    except OSError as why:
        raise Fault(told_by_system(why)) from why
