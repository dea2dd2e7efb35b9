"""What commands have in common where they begin, write, complain and end."""

import io
import os
import resource
import signal
import sys
from typing import Any, Callable, Optional

from ._shown import shown
from .bounds import MEMORY as LEAST_MEMORY

USAGE, UNREAD, MEMORY = 2, 3, 4

# A line has paths in it, and whole sentences.
_LONGEST = 1000


def hold_places() -> None:
    """Has no file that is opened later take the place of an input, an output or errors that are closed."""
    nowhere = os.open(os.devnull, os.O_RDWR)
    while nowhere <= 2:
        nowhere = os.dup(nowhere)
    os.close(nowhere)


def bound_memory(shares: int = 1) -> None:
    """Takes half of the machine's memory at most, or a share of it: what wants more is told so, and the machine lives on. What
    threads only reserve isn't counted."""
    half = os.sysconf("SC_PAGE_SIZE") * os.sysconf("SC_PHYS_PAGES") // 2
    most = min(half, max(half // shares, LEAST_MEMORY))
    soft, hard = resource.getrlimit(resource.RLIMIT_DATA)
    if soft == resource.RLIM_INFINITY or soft > most:
        resource.setrlimit(resource.RLIMIT_DATA, (most, hard))


def say(command: str, line: str) -> None:
    """A line on standard error, if anybody hears it."""
    if sys.stderr is None:
        return
    try:
        print(f"{command}: {shown(line, _LONGEST)}", file=sys.stderr, flush=True)
    except OSError:
        _leave(2)


class Output:
    """The output, in text or in bytes, all of it: where Python holds nothing back (PYTHONUNBUFFERED), what it has for it may
    take less than it is given. Raises OSError where it can't be written; a reader who is gone ends the command, as other
    programs end, unless it has more to do."""

    def __init__(self, ends_with_reader: bool = True) -> None:
        if ends_with_reader:
            signal.signal(signal.SIGPIPE, signal.SIG_DFL)
        if sys.stdout is None:
            raise OSError("the output is closed")
        self._encoding = sys.stdout.encoding
        self._file = io.BufferedWriter(io.FileIO(1, "wb", closefd=False))

    def line(self, text: str) -> None:
        self.bytes(f"{text}\n".encode(self._encoding, "backslashreplace"))

    def bytes(self, content: bytes) -> None:
        self._tried(lambda: self._file.write(content))

    def flush(self) -> None:
        self._tried(self._file.flush)

    def _tried(self, call: Callable[[], Any]) -> None:
        try:
            call()
        except OSError as why:
            _leave(1)
            raise OSError(f"the output can't be written: {why.strerror}") from why


def _leave(number: int) -> None:
    """Has what a file still holds go nowhere, since Python would try to write it once more at its end."""
    nowhere = os.open(os.devnull, os.O_WRONLY)
    os.dup2(nowhere, number)
    os.close(nowhere)


def of_system(why: OSError) -> str:
    """A failed call of the system, in a line."""
    name: Optional[Any] = why.filename
    what = why.strerror or str(why) or type(why).__name__
    return what if name is None else f"{os.fsdecode(name) if isinstance(name, (str, bytes)) else name}: {what}"
