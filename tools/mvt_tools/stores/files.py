"""Tiles in files: what a folder tree and a list have in common, and how a file is opened that somebody else made."""

import errno
import io
import os
import re
import stat
from typing import Iterator, List, Tuple

from .. import bounds, foreign
from . import Address, Content

_PLACE = re.compile(r"(?:.*/)?([0-9]{1,2})/([0-9]{1,10})/([0-9]{1,10})\.(?:mvt|pbf)(?:\.gz)?")

# What isn't opened, by its kind in a file's mode.
_OTHERS = {stat.S_IFDIR: "a folder", stat.S_IFIFO: "a pipe", stat.S_IFCHR: "a device", stat.S_IFBLK: "a device"}

# How much is read at a time of pieces that stand one behind the other.
_LEAST_AHEAD, _MOST_AHEAD = 1 << 15, 1 << 20


def address_of(name: str) -> Address:
    """The address of a file, with z, x and y where its name ends with them."""
    place = _PLACE.fullmatch(name)
    shown = name.encode("utf-8", "surrogateescape").decode("utf-8", "backslashreplace")
    if place is None:
        return Address(None, None, None, shown)
    z, x, y = map(foreign.spelled, place.groups())
    return Address(z, x, y, shown)


def opened(path: str) -> io.FileIO:
    """A file, and nothing that is waited for: no pipe, device or terminal. Raises OSError."""
    if "\0" in path:
        raise OSError(errno.EINVAL, "a name with a NUL is no file's")
    file = os.open(path, os.O_RDONLY | os.O_NONBLOCK | os.O_NOCTTY | os.O_CLOEXEC)
    try:
        _check_kind(os.fstat(file), path)
        return io.FileIO(file)
    except BaseException:
        os.close(file)
        raise


def size_of(path: str) -> int:
    """The size of a file, which isn't opened. Raises OSError where it is none."""
    told = os.stat(path)
    _check_kind(told, path)
    return told.st_size


def _check_kind(told: os.stat_result, path: str) -> None:
    kind = stat.S_IFMT(told.st_mode)
    if kind != stat.S_IFREG:
        raise OSError(errno.EINVAL, f"it is {_OTHERS.get(kind, 'something else')}, and no file", path)


def front(path: str, length: int) -> bytes:
    """The first bytes of a file; none where it can't be read."""
    try:
        with opened(path) as file:
            return file.read(length) or b""
    except OSError:
        return b""


def read(path: str) -> bytes:
    """A file, or the front that decides. Raises OSError."""
    with opened(path) as file:
        return os.read(file.fileno(), bounds.FILE)


class ReadAhead:
    """Reads pieces of an open file. While they stand one behind the other, more and more is read at a time."""

    def __init__(self, file: int) -> None:
        self._file = file
        self._start = self._ahead = 0
        self._held = b""

    def __call__(self, offset: int, length: int) -> bytes:
        """The piece, or what the file has of it. Raises OSError."""
        at = offset - self._start
        held = len(self._held)
        if not 0 <= at <= held - length:
            self._ahead = min(max(2 * self._ahead, _LEAST_AHEAD), _MOST_AHEAD) if 0 < at <= held else 0
            self._held, self._start, at = foreign.piece(self._file, offset, max(length, self._ahead)), offset, 0
        return self._held[at : at + length]


def told(path: str, name: str) -> bytes:
    """A file's name, size and time of change, for a digest."""
    try:
        told = os.stat(path)
    except (OSError, ValueError):  # the latter for a name with a NUL
        return os.fsencode(f"{name}\0absent\n")
    return os.fsencode(f"{name}\0{told.st_size}\0{told.st_mtime_ns}\n")


def tiles_of(folder: str, names: List[str]) -> Iterator[Tuple[Address, Content]]:
    for name in names:
        content: Content
        try:
            content = read(os.path.join(folder, name))
        except OSError as why:
            content = why
        yield address_of(name), content


def batches(names: Iterator[str], size: int) -> Iterator[List[str]]:
    held: List[str] = []
    for name in names:
        held.append(name)
        if len(held) == size:
            yield held
            held = []
    if held:
        yield held
