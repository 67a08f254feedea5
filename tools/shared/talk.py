"""A talk with a program over pipes: lines are sent, and its answers read."""

import os
import subprocess
import sys
import threading
import time


class Talk:
    """A program, which is handed an input at first. Where it ends too soon, or puts an error, this
    process ends."""

    def __init__(self, command, data=b"", **how):
        self.name, self.began = " ".join(map(str, command[1:])), time.perf_counter()
        self.child = subprocess.Popen(command, stdin=subprocess.PIPE, stdout=subprocess.PIPE, **how)
        if data:
            self.send(data)

    def send(self, data):
        self.child.stdin.write(data)
        self.child.stdin.flush()

    def sending(self, data):
        """Sends while answers are read: gives the thread that does it."""
        sender = threading.Thread(target=self.send, args=(data,))
        sender.start()
        return sender

    def words(self):
        """The words of the next line."""
        line = self.child.stdout.readline()
        if not line:
            sys.exit(f"{self.name}: it ended")
        return line.split()

    def tell(self, line):
        self.send(line.encode() + b"\n")

    def line(self):
        line = self.child.stdout.readline().decode().rstrip("\n")
        if not line or line.startswith("error"):
            sys.exit(f"{self.name}: {line or 'it ended'}")
        return line

    def lines_to(self, *lasts):
        """The lines up to one that is, or begins with, one of the last ones."""
        lines = [self.line()]
        while not lines[-1].startswith(lasts):
            lines.append(self.line())
        return lines

    def ask(self, line):
        self.tell(line)
        return self.line()

    def seconds(self):
        return time.perf_counter() - self.began

    def mebibytes(self, what):
        """What it holds (VmRSS), or held at most (VmHWM)."""
        with open(f"/proc/{self.child.pid}/status", encoding="ascii") as status:
            return next(int(line.split()[1]) for line in status if line.startswith(what)) / 1024

    def user(self):
        """The user seconds that it took so far."""
        with open(f"/proc/{self.child.pid}/stat", encoding="ascii") as stat:
            return int(stat.read().rpartition(")")[2].split()[11]) / os.sysconf("SC_CLK_TCK")

    def close(self):
        """Ends its input and waits for its end. Gives its status, and the user seconds that it
        took."""
        self.child.stdin.close()
        _, status, used = os.wait4(self.child.pid, 0)
        self.child.returncode = os.waitstatus_to_exitcode(status)
        return self.child.returncode, used.ru_utime

    def kill(self):
        self.child.kill()
        self.child.wait()
