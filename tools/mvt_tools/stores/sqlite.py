"""SQLite files that somebody else made, open for reading. A schema may have views that never end, values that a few bytes
make a gigabyte of, and functions that take for ever: all of these end in an sqlite3.Error, and Ctrl-C comes through."""

import os
import sqlite3
import threading
import time
from contextlib import closing
from pathlib import Path
from typing import Any, Iterator, Optional, Tuple

from .. import bounds
from . import files
from .waiting import alive

# After so many steps of SQLite's machine, about a millisecond, is looked whether it goes on.
_STEPS = 10_000
# What views of tiles call. Other functions may take for ever in one step.
_FUNCTIONS = {
    *(
        "coalesce",
        "ifnull",
        "iif",
        "nullif",
        "typeof",
        "abs",
        "length",
        "lower",
        "upper",
        "substr",
        "substring",
        "zeroblob",
    ),
    *("count", "max", "min", "sum", "total"),
}


class Watched(sqlite3.Connection):
    """A connection to a stranger's file."""

    def __init__(self, path: str, is_logged: bool = False) -> None:
        """`is_logged` for a file that wants a log beside it. Raises sqlite3.Error where there is no file, or a pipe or the
        like beside it. None of them is opened here, since closing one would give up the locks that this process has."""
        try:
            size, (where, is_alone) = files.size_of(path), _where(path, is_logged)
        except OSError as why:
            raise sqlite3.OperationalError(why.strerror) from why
        super().__init__(where, uri=True, isolation_level=None)
        self.execute("pragma trusted_schema = off")
        self.execute("pragma cell_size_check = on")
        if is_alone:
            self.execute("pragma locking_mode = exclusive")
        if hasattr(self, "setlimit"):  # from Python 3.11 on
            self.setlimit(sqlite3.SQLITE_LIMIT_LENGTH, bounds.VALUE)
        self.text_factory = _text
        self._seconds = bounds.ROW_SECONDS + size / bounds.ROW_BYTES_A_SECOND
        self._ends, self._named, self._is_denied = 0.0, 0, False
        self._why: Optional[BaseException] = None
        self.set_authorizer(self._allowed)
        self.set_progress_handler(self._looks().__next__, _STEPS)

    def rows(self, query: str, values: Tuple[Any, ...] = ()) -> Iterator[Tuple[Any, ...]]:
        """What is found, row by row. Raises sqlite3.Error, also where the next row doesn't come in its time, and what ends
        the command or the question."""
        self._named, self._is_denied = 0, False
        self._ends = time.monotonic() + self._seconds
        try:
            for row in self.execute(query, values):
                yield row
                self._ends = time.monotonic() + self._seconds
        except UnicodeDecodeError as error:  # a name in a damaged schema
            raise sqlite3.DatabaseError(str(error)) from error
        except sqlite3.Error as error:
            why, self._why = self._why, None
            if why is not None:
                raise why from error
            if "authorized" in str(error) or "prohibited" in str(error):
                self._check_denied()
            if time.monotonic() > self._ends:
                raise sqlite3.OperationalError(f"no answer within {self._seconds:.0f} seconds") from error
            raise

    def row(self, query: str, values: Tuple[Any, ...] = ()) -> Optional[Tuple[Any, ...]]:
        """The first of them, if there is one."""
        with closing(self.rows(query, values)) as found:  # type: ignore[type-var]
            return next(found, None)

    def _looks(self) -> Iterator[bool]:
        """Whether SQLite has to end. What a signal raises is kept, which SQLite would drop: it is raised where Python goes
        on, and that is within this `try`, while a function's would be raised before its first line."""
        try:
            while True:
                alive()
                yield time.monotonic() > self._ends
        except GeneratorExit:
            return
        except BaseException as why:
            self._why = why
        while True:
            yield True

    def _allowed(self, action: int, _: Optional[str], function: Optional[str], *others: Optional[str]) -> int:
        self._named += 1
        if self._named <= bounds.NAMES_OF_A_QUESTION and (
            action != sqlite3.SQLITE_FUNCTION or str(function).lower() in _FUNCTIONS
        ):
            return sqlite3.SQLITE_OK
        self._is_denied = True
        return sqlite3.SQLITE_DENY

    def _check_denied(self) -> None:
        """Raises KeyboardInterrupt where nothing was denied but by a signal that came within `_allowed`: what that raised
        SQLite has dropped."""
        if not self._is_denied and threading.current_thread() is threading.main_thread():
            raise KeyboardInterrupt


def _where(path: str, is_logged: bool) -> Tuple[str, bool]:
    """What SQLite opens, and whether this connection is alone with it. Nothing appears beside the file: where a log stands
    there and nobody has it open, SQLite reads it without the file that several would share; where none stands there, a file
    that wants one is read as it is."""
    lengths = {end: files.size_of(path + end) for end in ("-journal", "-wal", "-shm") if os.path.lexists(path + end)}
    address = f"{Path(path).as_uri()}?mode=ro"
    if "-wal" in lengths and "-shm" in lengths:
        return address, False  # what several share is there
    if lengths.get("-wal"):
        return f"{address}&vfs=unix-none", True
    return (f"{address}&immutable=1" if is_logged else address), False


def _text(content: bytes) -> str:
    return content.decode("utf-8", "surrogateescape")
