"""How the command ends: by a signal, or by what went wrong, which is told in one line and has its status."""

import os
import signal
import sqlite3
import time
import traceback
from typing import Any, Optional, Tuple

from .. import _ending
from .._ending import MEMORY, UNREAD, USAGE
from ..stores import StoreError
from .engine import EngineError
from .results import ResultsError

# The shell's way to tell a signal.
_SIGNALLED = 128

# So many seconds the command may take to end.
_PATIENCE = 1.5


class Ended(KeyboardInterrupt):
    """Somebody ended the command."""


class Signals:
    """Ctrl-C and SIGTERM. The first one is raised wherever the command is; what it does to end isn't broken off, but by
    one that comes when that lasts."""

    number: Optional[int] = None
    _since = 0.0

    def heed(self) -> None:
        for each in (signal.SIGINT, signal.SIGTERM):
            signal.signal(each, self._end)

    def check(self) -> None:
        """Raises Ended once more where a call of another language has swallowed it."""
        if self.number is not None:
            raise Ended

    def status(self) -> int:
        return _SIGNALLED + (self.number or signal.SIGINT)

    def _end(self, number: int, _: Any) -> None:
        if self.number is None:
            self.number, self._since = number, time.monotonic()
            raise Ended
        if time.monotonic() - self._since > _PATIENCE:
            os._exit(self.status())


def say(line: str) -> None:
    _ending.say("mvt-audit", line)


def write(text: str) -> None:
    """Lines on the output. Raises OSError."""
    output = _ending.Output()
    output.line(text)
    output.flush()


def told(why: BaseException) -> Tuple[int, str]:
    """The status and the line of what went wrong."""
    if isinstance(why, ResultsError):
        return USAGE, str(why)
    if isinstance(why, (StoreError, EngineError)):
        return UNREAD, str(why)
    if isinstance(why, MemoryError):
        return MEMORY, "out of memory"
    if isinstance(why, RecursionError):
        return UNREAD, "what is to be read is nested too deeply"
    if isinstance(why, sqlite3.Error):
        return UNREAD, f"audit.sqlite: {why}"
    if isinstance(why, OSError):
        return UNREAD, _ending.of_system(why)
    return UNREAD, f"a defect of mvt-audit: {type(why).__name__}: {why} ({_where(why)})"


def _where(why: BaseException) -> str:
    last = traceback.extract_tb(why.__traceback__)[-1:]
    return ", ".join(f"{os.path.basename(each.filename)}:{each.lineno}" for each in last)
