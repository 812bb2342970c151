"""Pairs chess tournaments by the FIDE (Dutch) System: the engine of arbiter, by its library libarbiter.so.

    from arbiter import Arbiter

    engine = Arbiter()
    print(engine.ask(open("club.trf", "rb").read(), "pair", "--names").decode())

A report is bytes, and so is what comes back. Between calls nothing is kept but how long a text may become, and threads may call at the same time: a
call lets the others run.
A thread that calls needs 512 KiB of stack, which threads of Python have unless threading.stack_size() sets less."""
import ctypes
import os
from typing import NamedTuple, Optional, Union


class ArbiterError(Exception):
    """A call did not end with status 0. It has the status, the output and the message of the call, the last two as bytes."""

    status: int = -1

    def __init__(self, output: bytes, message: bytes) -> None:
        super().__init__((message or output).decode(errors="replace").strip())
        self.output = output
        self.message = message


class ReportRefused(ArbiterError):
    """The report is refused, and the message says why. Another try does not help."""

    status = 1


class BadWords(ArbiterError):
    """The words are refused, and the message says why."""

    status = 2


class NoPairing(ArbiterError):
    """No pairing meets the absolute criteria. The arbiter decides; `explain` says why."""

    status = 3


class Undecided(ArbiterError):
    """The limit of steps was reached first. Call again with a larger --steps; the round is not decided."""

    status = 4


class Trouble(ArbiterError):
    """Memory was refused."""

    status = 5


class Answer(NamedTuple):
    """What a call answers: the exit status, and what the program would write to its two outputs."""

    status: int
    output: bytes
    message: bytes


class _Lengths(ctypes.Structure):
    _fields_ = [("output", ctypes.c_size_t), ("message", ctypes.c_size_t)]


_ERRORS = {it.status: it for it in (ReportRefused, BadWords, NoPairing, Undecided, Trouble)}
# how many bytes an output and a message may have at first; a longer one is asked for again, with as much room as it needs from then on
_ROOMS = 1 << 12, 1 << 10


class Arbiter:
    """The engine. One object serves any number of calls and threads."""

    def __init__(self, library: Optional[Union[str, "os.PathLike[str]"]] = None) -> None:
        """Loads the library: the one that is named, or libarbiter.so beside this file."""
        beside = os.path.join(os.path.dirname(os.path.abspath(__file__)), "libarbiter.so")
        self._run = ctypes.CDLL(os.fspath(library or beside)).arbiter_run
        self._run.restype = ctypes.c_uint8
        self._run.argtypes = [ctypes.c_char_p, ctypes.c_size_t] * 4 + [ctypes.POINTER(_Lengths)]
        # (threads may set it at the same time: one that sets less than another only has its next caller ask again)
        self._rooms = _ROOMS

    def call(self, report: bytes, *words: str) -> Answer:
        """Runs the words of a command line over a report, and returns what comes, whatever the status. A word has no line end."""
        lines = "\n".join((*words, ""))
        if "\r" in lines or lines.count("\n") != len(words):
            word = next(it for it in words if "\n" in it or "\r" in it)
            raise ValueError(f"a word with a line end: {word!r}")
        text, rooms = lines.encode(errors="surrogateescape"), self._rooms
        while True:
            # (array types and slices, as create_string_buffer and string_at take longer)
            output, message, lengths = (ctypes.c_char * rooms[0])(), (ctypes.c_char * rooms[1])(), _Lengths()
            status = self._run(text, len(text), report, len(report), output, rooms[0], message, rooms[1], ctypes.byref(lengths))
            if lengths.output <= rooms[0] and lengths.message <= rooms[1]:
                return Answer(status, output[: lengths.output], message[: lengths.message])
            self._rooms = rooms = max(rooms[0], lengths.output), max(rooms[1], lengths.message)

    def ask(self, report: bytes, *words: str) -> bytes:
        """Runs the words over a report, and returns the output; raises the error of the status, if that is not 0."""
        status, output, message = self.call(report, *words)
        if status:
            raise _ERRORS[status](output, message)
        return output
