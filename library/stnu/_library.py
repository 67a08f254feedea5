"""The C interface of the library, which lies beside this file, and a run of it."""

import ctypes
import threading
from collections.abc import Iterable
from dataclasses import dataclass
from enum import IntEnum
from pathlib import Path

_LIBRARY = ctypes.CDLL(str(Path(__file__).with_name("libstnu.so.1")))
_WORDS = ctypes.POINTER(ctypes.c_char_p)
_MISUSE = -2


def _declared(name, result, *given):
    """A function of the library, with its types. While it works other threads go on."""
    function = getattr(_LIBRARY, name)
    function.restype, function.argtypes = result, given
    return function


_version = _declared("stnu_version", ctypes.c_char_p)
_made = _declared("stnu_made", ctypes.c_char_p)
_open = _declared("stnu_open", ctypes.c_uint64, _WORDS)
_feed = _declared("stnu_feed", ctypes.c_int, ctypes.c_uint64, ctypes.c_char_p, ctypes.c_size_t)
_end = _declared("stnu_end", ctypes.c_int, ctypes.c_uint64)
_answer = _declared("stnu_answer", ctypes.c_void_p, ctypes.c_uint64, ctypes.POINTER(ctypes.c_size_t))
_stop = _declared("stnu_stop", ctypes.c_int, ctypes.c_uint64)
_close = _declared("stnu_close", ctypes.c_int, ctypes.c_uint64)


class Status(IntEnum):
    """How a run stands: it goes on, or has ended so."""

    RUNNING = -1
    YES = 0
    NO = 1
    WORDS = 2
    FORMAT = 3
    LIMIT = 4
    READ = 5
    WRITE = 6
    EVENT = 7
    MEMORY = 8


@dataclass(frozen=True)
class Answer:
    """What was answered, and how the run stands then."""

    status: Status
    text: str


class Closed(RuntimeError):
    """The run is closed, or has ended, or another thread is using it: nothing was done."""


def version() -> str:
    """The version of the library."""
    return _version().decode()


def made() -> str:
    """How the library was made: `proved` or `checked`, and then by which kit and of which sources."""
    return _made().decode()


def _bytes(text: str | bytes) -> bytes:
    """What is fed: text, or bytes as they are."""
    return text if isinstance(text, bytes) else text.encode("utf-8", "surrogateescape")


class Run:
    """A run of the workbench: what the program `stnu` does with these words, over lines that are fed.

    It answers each whole line before it takes more, so what `feed` gives is the whole answer to the lines that were fed. A run is
    used by one thread at a time. It is closed by `close`, by the end of a `with`, or when nothing refers to it any more.
    """

    def __init__(self, *words: str):
        given = [word.encode("utf-8", "surrogateescape") for word in words]
        if any(b"\0" in word for word in given):
            raise ValueError("a word with a zero byte in it")
        self._number, self._used = 0, threading.Lock()
        self._number = _open((ctypes.c_char_p * (len(given) + 1))(*given, None))
        if not self._number:
            raise MemoryError("there is no memory for a run")
        self.status = Status.RUNNING

    def _enter(self) -> None:
        """Until the run is left no other thread changes the answer, which is copied meanwhile."""
        if not self._used.acquire(blocking=False):
            raise Closed("another thread is using the run")

    def _answered(self, call, *given) -> Answer:
        """The answer to a call of the library."""
        size = ctypes.c_size_t()
        self._enter()
        try:
            status = call(self._number, *given)
            if status == _MISUSE:
                raise Closed("the run is closed")
            self.status = Status(status)
            text = ctypes.string_at(_answer(self._number, ctypes.byref(size)), size.value)
        finally:
            self._used.release()
        return Answer(self.status, text.decode("utf-8", "surrogateescape"))

    def feed(self, text: str | bytes) -> Answer:
        """Hands over input, a `str` or `bytes`, lines whole or not, and gives the answer to the whole lines among it."""
        given = _bytes(text)
        return self._answered(_feed, given, len(given))

    def end(self) -> Answer:
        """Says that the input ends here."""
        return self._answered(_end)

    def stop(self) -> None:
        """Has the run end soon, with `Status.MEMORY`: the one call that another thread may make while the run works."""
        if _stop(self._number) == _MISUSE:
            raise Closed("the run is closed")

    def close(self) -> None:
        """Ends the run, where it has not ended, and gives back what it held. Once it is closed nothing is done."""
        self._enter()
        _close(self._number)
        self._number = 0
        self._used.release()

    def __enter__(self):
        return self

    def __exit__(self, *_):
        self.close()

    def __del__(self):
        _close(getattr(self, "_number", 0))


def run(words: Iterable[str], text: str | bytes = "") -> Answer:
    """A run over a whole input: the same as the program gives for these words and this text."""
    with Run(*words) as it:
        answer = it.feed(text)
        if answer.status is not Status.RUNNING:
            return answer
        last = it.end()
        return Answer(last.status, answer.text + last.text)
