"""A .txt file with the name of a tile's file on each line. Names are taken from the list's own folder."""

import hashlib
import io
import os
from typing import BinaryIO, Iterator, List, Optional, Tuple, Union

from .. import bounds
from . import Address, Content, Key, Options, State, Store, StoreError, files


def opened(path: str, options: Options = Options()) -> Optional["Listed"]:
    return Listed(path) if path.endswith(".txt") and not os.path.isdir(path) else None


class Listed(Store):
    kind = "list"

    def __init__(self, path: str) -> None:
        self.path = os.path.abspath(path)
        self.folder = os.path.dirname(self.path)

    def check(self) -> None:
        if next(self._names(), None) is None:
            raise StoreError(f"{self.path}: this list has no names")

    def state(self) -> State:
        digest, tiles = hashlib.sha256(), 0
        for name in self._names():
            digest.update(files.told(os.path.join(self.folder, name), name))
            tiles += 1
        if not tiles:
            raise StoreError(f"{self.path}: this list has no names")
        return State(tiles, digest.hexdigest())

    def ranges(self, size: int) -> Iterator[List[str]]:
        return files.batches(self._names(), size)

    def tiles(self, part: List[str]) -> Iterator[Tuple[Address, Content]]:
        return files.tiles_of(self.folder, part)

    def tile(self, address: Address) -> bytes:
        return files.read(os.path.join(self.folder, str(address)))

    # A key is where a line begins.

    def since(self, key: Optional[Key]) -> Iterator[Tuple[Key, Address, Content]]:
        for start, name in self._lines(key):
            [(address, content)] = files.tiles_of(self.folder, [name])
            yield (start,), address, content

    def find(self, z: int, x: int, y: int) -> Optional[Key]:
        for start, name in self._lines(None):
            if files.address_of(name)[:3] == (z, x, y):
                return (start,)
        return None

    def held(self, key: Key) -> bytes:
        for _, name in self._lines(key):
            return files.read(os.path.join(self.folder, name))
        raise ValueError("no line begins there")

    def _names(self) -> Iterator[str]:
        return (name for _, name in self._lines(None))

    def _lines(self, key: Optional[Key]) -> Iterator[Tuple[int, str]]:
        """The names from a line on, each with where its line begins."""
        [start] = (0,) if key is None else key
        try:
            with io.BufferedReader(files.opened(self.path)) as file:
                at = _seek_line(file, start)
                for line in iter(lambda: file.readline(bounds.LINE), b""):
                    if len(line) == bounds.LINE and line[-1:] != b"\n":
                        raise StoreError(f"{self.path}: no list: the line at byte {at:,} is longer than any name")
                    if line.strip():
                        yield at, os.fsdecode(line.rstrip(b"\r\n"))
                    at += len(line)
        except OSError as why:
            raise StoreError(f"{self.path}: {why.strerror}") from why


def _seek_line(file: BinaryIO, start: Union[int, str]) -> int:
    """Goes to a line. Raises ValueError where none begins there: a part of a name may be another name."""
    if not isinstance(start, int) or not 0 <= start < 1 << 63:
        raise ValueError("a line begins at a number")
    if start > 0:
        file.seek(start - 1)
        if file.read(1) != b"\n":
            raise ValueError("no line begins there")
    return start
