"""The tile that a command is given: from standard input, a file, or a store and a place in it."""

import argparse
import sqlite3
import sys
from collections import Counter
from typing import Any, BinaryIO, Callable, NoReturn, Optional, Sequence, Tuple

from libmvt import CHANGES, MvtError, NoLayer, Refused, TooLarge
from libmvt.raw import CHANGE_ROW, mend_rows

from . import bounds
from ._ending import MEMORY, UNREAD, USAGE, Output, bound_memory, hold_places, of_system, say
from ._shown import shown
from .stores import Options, Store, StoreError, files, found, place_of
from .stores.archive import ZSTD, ArchiveError
from .stores.archive import unpacked as unpacked_by
from .stores.unpacking import LIMIT, NotUnpacked, tile_in

REFUSED = 1
# What zstd begins with.
_ZSTD = b"\x28\xb5\x2f\xfd"
_PIECE = 1 << 20
# What `--mend` is.
MEND = "mend a tile that breaks only ZeroSegment or FirstRing, as mvt mend does; standard error counts the changes"
# A fault is told in so many letters, so that what helps has room behind it.
_MOST_SAID = 900

Place = Tuple[int, int, int]


class GivenError(Exception):
    """Why there is no tile as it was given, in a line, and the status that says so."""

    def __init__(self, status: int, line: str) -> None:
        super().__init__(line)
        self.status = status


class Words(argparse.ArgumentParser):
    """A command line. What is wrong with it is told in one line."""

    def print_help(self, file: Any = None) -> None:
        output = Output()
        output.line(self.format_help().rstrip())
        output.flush()

    def error(self, message: str) -> NoReturn:
        say(self.prog, f"{message}; {self.prog} --help says more")
        self.exit(USAGE)


def store_and_place(words: Sequence[str]) -> Tuple[Optional[str], Optional[Place]]:
    """The store or file, and the place, of `[STORE] [Z/X/Y]`. Raises GivenError."""
    place = place_of(words[-1].split("/")) if words else None
    rest = list(words[:-1] if place else words)
    if len(rest) > 1:
        raise GivenError(USAGE, f"{shown(rest[-1])}: no place of a tile, which is as 14/8192/8191")
    return (rest[0] if rest else None), place


def stored(what: Optional[str], place: Optional[Place], as_it_lies: bool = False) -> bytes:
    """The bytes of a tile as they are stored, or of a larger file the front that decides: of standard input, where nothing
    or `-` is named. Raises GivenError, StoreError and OSError."""
    if what in (None, "-"):
        return _read(sys.stdin)
    # A server's zooms are asked for only where its tiles are listed.
    store = found(what, Options(zooms=(place[0], place[0]) if place else None))  # type: ignore[arg-type]
    if store is None:
        return files.read(what)  # type: ignore[arg-type]
    if place is None:
        raise GivenError(USAGE, f"{what}: which tile of this store? say its place, as 14/8192/8191")
    return _of_store(store, place, as_it_lies)


def _read(file: Any) -> bytes:
    if file is None:
        raise OSError("the input is closed")
    source: BinaryIO = file.buffer
    held = bytearray()
    for piece in iter(lambda: source.read(_PIECE), b""):
        if piece is None:
            raise OSError("the input has nothing yet, and doesn't wait")
        held += piece
        if len(held) > bounds.FILE:
            break
    return bytes(held)


def _of_store(store: Store, place: Place, as_it_lies: bool) -> bytes:
    try:
        store.check()
        key = store.find(*place)
        if key is None:
            raise GivenError(UNREAD, f"{store.path}: no tile {'/'.join(map(str, place))}")
        return store.lying(key) if as_it_lies else store.held(key)
    except (OSError, sqlite3.Error) as why:
        raise GivenError(UNREAD, f"{store.path}: {getattr(why, 'strerror', None) or why}") from why


def plain(content: bytes) -> bytes:
    """A tile out of gzip, zlib or zstd; at most one byte beyond what a tile may have. Raises GivenError."""
    try:
        if content.startswith(_ZSTD):
            return unpacked_by(content, ZSTD, LIMIT + 1)
        return tile_in(content)
    except (NotUnpacked, ArchiveError) as why:
        raise GivenError(REFUSED, f"it doesn't unpack: {why}") from why


def mended(command: str, tile: bytes) -> bytes:
    """A tile with what is broken mended, in canonical form; a line counts the changes. Raises Refused with the tile's fault where
    it can't be mended, and TooLarge."""
    made, rows = mend_rows(tile)
    counts = Counter(CHANGES[kind] for kind, *_ in CHANGE_ROW.iter_unpack(rows))
    if counts:
        say(command, "mended: " + ", ".join(f"{kind} {count:,}" for kind, count in sorted(counts.items())))
    return made


def run(command: str, work: Callable[[], int]) -> int:
    """The status of a command that does some work; whatever goes wrong is told in one line."""
    try:
        hold_places()
        bound_memory()
        return work()
    except Exception as why:
        status, line = _told(why)
        say(command, line)
        return status


def _told(why: Exception) -> Tuple[int, str]:
    if isinstance(why, GivenError):
        return why.status, str(why)
    if isinstance(why, Refused):
        return REFUSED, _with_hint(why)
    if isinstance(why, TooLarge):
        return REFUSED, str(why)
    if isinstance(why, NoLayer):
        return USAGE, f"no layer of version 2 has the name {shown(repr(why.name))}"
    if isinstance(why, MemoryError):
        return MEMORY, "out of memory"
    if isinstance(why, OSError):
        return UNREAD, of_system(why)
    if isinstance(why, (StoreError, MvtError)):
        return UNREAD, str(why)
    return UNREAD, f"a defect: {type(why).__name__}: {why}"


def _with_hint(fault: Refused) -> str:
    """The fault, and what helps: an explanation has names of any length."""
    said = shown(f"{fault.line}: {fault.explanation}", _MOST_SAID)
    return f"{said}: {fault.hint}" if fault.hint else said
