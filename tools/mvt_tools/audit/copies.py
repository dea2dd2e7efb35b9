"""Copies of stores, with some tiles in the place of others. What was begun, by a run that ended, is gone on with."""

import errno
import json
import os
import sqlite3
from contextlib import closing, suppress
from dataclasses import dataclass, field
from hashlib import blake2b
from pathlib import Path
from typing import Any, Callable, Dict, Iterator, List, Optional, Tuple, cast

from .. import bounds, foreign
from .._shown import shown
from ..stores import Address, Content, Key, State, Store, StoreError, files
from ..stores.mbtiles import MBTiles
from ..stores.pmtiles import PMTiles
from ..stores.tile_ids import id_of, place_of
from ..stores.tree import Tree
from . import metadata
from .links import is_out, leads_out
from .parts import Part, give, put, taken
from .results import Results, ResultsError

# About so many bytes a place takes in the copy.
_ROW = 30

# What stands in the place of some tiles: the contents themselves, most often.
Tiles = List[Tuple[Address, bytes]]
Changed = Callable[[Tiles], List[bytes]]


def copy_of(results: Results, store: Store, state: State, to: Path) -> "Copy":
    """A copy of a store that will stand at a path. Raises ResultsError where there can't be one."""
    if os.path.lexists(to):
        raise taken(to)
    if isinstance(store, Tree):
        return _Folder(store, Part(to, results.file.parent, state.digest))
    if not isinstance(store, (MBTiles, PMTiles)):
        raise ResultsError(f"{store.path}: what is mended is a folder, an MBTiles file or a PMTiles archive")
    if to.suffix == ".pmtiles":
        raise ResultsError(f"{to}: an MBTiles file is written; let its name end with .mbtiles")
    size = os.path.getsize(store.path)
    most = max(bounds.PLACES, size)
    if isinstance(store, PMTiles) and state.tiles > most:
        raise ResultsError(
            f"{store.path}: no copy is made of {state.tiles:,} tiles in {size:,} bytes; {most:,} are the most"
        )
    return _MBTilesFile(store, Part(to, results.file.parent, state.digest))


@dataclass
class _Batch:
    """Tiles that are copied by one step: what they are, the key of the last, how many places they and those have that aren't
    copied, and how many of these are links that lead out."""

    last: Optional[Key]
    tiles: Tiles = field(default_factory=list)
    places: int = 0
    copied: int = 0
    links: int = 0
    size: int = 0

    def is_full(self) -> bool:
        return (
            len(self.tiles) >= bounds.TILES_AT_A_TIME or self.size > bounds.BYTES_AT_A_TIME or self.places >= bounds.RUN
        )


class Copy:
    """A copy that isn't whole yet. `told` is what is remembered with it: how many tiles were looked at, how many of them
    couldn't be copied, and how many of these are links that lead out; why the store's metadata aren't in it, if they aren't; and
    what its maker adds."""

    def __init__(self, store: Store, part: Part) -> None:
        self._store, self._part = store, part
        self._last: Optional[Key] = None
        self.told: Dict[str, Any] = {"copied": 0, "left_out": 0, "links": 0, "metadata": None}

    def close(self) -> None:
        """Gives up what is held of a copy, which may be gone on with."""
        self._part.close()

    def steps(self, changed: Changed) -> Iterator[int]:
        """Copies the tiles that aren't copied yet, some by each step, and tells how many. Raises StoreError where the copy
        would be too much for such a store."""
        for batch in self._batches():
            self._write(batch, changed(batch.tiles))
            yield batch.places

    def end(self) -> None:
        """Has the copy stand where it is wanted. Raises ResultsError where something appeared there."""
        raise NotImplementedError

    def _write(self, batch: _Batch, contents: List[bytes]) -> None:
        """Writes tiles, and then tells them."""
        raise NotImplementedError

    def _batches(self) -> Iterator[_Batch]:
        batch = _Batch(self._last)
        with closing(cast(Any, self._store.runs(self._last))) as tiles:
            for key, address, content in tiles:
                if content is None:
                    continue
                batch.last = key
                self._add(batch, address, content)
                if batch.is_full():
                    yield batch
                    batch = _Batch(key)
        yield batch

    def _add(self, batch: _Batch, address: Address, content: Content) -> None:
        """Takes a tile into a step, if it can be copied: what is read of a larger one than a tile is its front."""
        batch.places += address.tiles
        if not isinstance(content, bytes) or len(content) >= bounds.FILE or address.z is None:
            return
        if leads_out(self._store, address):
            batch.links += address.tiles
            return
        batch.tiles.append((address, content))
        batch.copied += address.tiles
        batch.size += len(content)

    def _told_with(self, batch: _Batch, copied: int) -> Dict[str, Any]:
        """What is told when a step is done, by which so many tiles were copied."""
        told = self.told
        return {
            **told,
            "copied": told["copied"] + batch.places,
            "left_out": told["left_out"] + batch.places - copied,
            "links": told["links"] + batch.links,
        }


class _Folder(Copy):
    """A folder of files. Those that are there are whole, since each is renamed when it is written."""

    def __init__(self, store: Tree, part: Part) -> None:
        super().__init__(store, part)
        part.whole.mkdir(0o700, exist_ok=True)
        self._folder = os.open(part.whole, os.O_RDONLY | os.O_DIRECTORY | os.O_NOFOLLOW | os.O_CLOEXEC)
        self.told["metadata"] = self._copy_metadata()

    def close(self) -> None:
        os.close(self._folder)
        super().close()

    def end(self) -> None:
        self._part.end()
        give(self._folder, self._mode(""))

    def _copy_metadata(self) -> Optional[str]:
        """Why they aren't in the copy, if they aren't."""
        path = os.path.join(self._store.path, metadata.FILE)
        if not os.path.lexists(path):
            return None
        if is_out(self._store.path, metadata.FILE):
            return "a link that leads out of the store"
        try:
            with files.opened(path) as file:
                content = file.read(bounds.SAID + 1) or b""
        except OSError as why:
            return why.strerror or str(why)
        if len(content) > bounds.SAID:
            return f"more than {bounds.SAID:,} bytes"
        put(self._folder, metadata.FILE, content, self._mode(metadata.FILE))
        return None

    def _write(self, batch: _Batch, contents: List[bytes]) -> None:
        for (address, content), made in zip(batch.tiles, contents):
            name = str(address)
            if made is not content or not os.access(name, os.F_OK, dir_fd=self._folder, follow_symlinks=False):
                self._make_folders(name)
                put(self._folder, name, made, self._mode(name))
        self.told = self._told_with(batch, batch.copied)

    def _make_folders(self, name: str) -> None:
        """The folders that a file lies in."""
        steps = name.split("/")
        for count in range(1, len(steps)):
            folder = "/".join(steps[:count])
            with suppress(FileExistsError):
                os.mkdir(folder, 0o700, dir_fd=self._folder)
                give(folder, self._mode(folder) | 0o700, self._folder)

    def _mode(self, name: str) -> int:
        """The rights that a file or folder of the store has, which the copy's gets."""
        return os.stat(os.path.join(self._store.path, name)).st_mode & 0o777


_TABLES = """
create table metadata (name text, value text);
create table tiles_shallow (
  zoom_level integer, tile_column integer, tile_row integer, tile_data_id integer,
  primary key (zoom_level, tile_column, tile_row)) without rowid;
create table tiles_data (tile_data_id integer primary key, tile_data blob);
create view tiles as
  select zoom_level, tile_column, tile_row, tile_data from tiles_shallow join tiles_data using (tile_data_id);
create table copying (key text, told text);
pragma application_id = 1297105496;
"""


class _MBTilesFile(Copy):
    """An MBTiles file: its table of places leads to that of contents, where equal ones stand once."""

    def __init__(self, store: Store, part: Part) -> None:
        super().__init__(store, part)
        self._kept: Dict[bytes, int] = {}
        self._most = max(bounds.COPY_LEAST, bounds.COPY * os.path.getsize(store.path))
        try:
            if part.is_begun and self._goes_on():
                return
            part.clear()
            self._open()
            self._database.executescript(f"begin; {_TABLES}")
            self.told["metadata"] = metadata.write(self._database, store)
            self._database.execute("insert into copying values ('null', ?)", (json.dumps(self.told),))
            self._database.execute("commit")
        except sqlite3.Error as why:
            raise self._failed(why) from why

    def close(self) -> None:
        self._database.close()
        super().close()

    def end(self) -> None:
        self._part.check_free()
        try:
            self._database.execute("drop table copying")
            self._database.close()
        except sqlite3.Error as why:
            raise self._failed(why) from why
        give(self._part.whole, os.stat(self._store.path).st_mode & 0o777)
        self._part.end()

    def _open(self) -> None:
        self._database = sqlite3.connect(self._part.whole, isolation_level=None)

    def _goes_on(self) -> bool:
        """Whether the copy that was begun is gone on with: it may have been damaged."""
        self._open()
        try:
            [(key, told)] = self._database.execute("select key, told from copying")
            last, told = foreign.parsed(key), {**self.told, **foreign.parsed(told)}
            last = None if last is None else tuple(last)
            with closing(cast(Any, self._store.runs(last))) as tiles:
                next(tiles, None)
        except (sqlite3.DatabaseError, ValueError, TypeError):
            self._database.close()
            return False
        self._last, self.told = last, told
        return True

    def _failed(self, why: sqlite3.Error) -> OSError:
        return OSError(errno.EIO, shown(str(why)), str(self._part.whole))

    def _write(self, batch: _Batch, contents: List[bytes]) -> None:
        self._check_room(batch, contents)
        try:
            self._database.execute("begin immediate")
            told = self._told_with(batch, self._insert(batch.tiles, contents))
            self._database.execute("update copying set key = ?, told = ?", (json.dumps(batch.last), json.dumps(told)))
            self._database.execute("commit")
        except BaseException as why:
            with suppress(sqlite3.Error):
                self._database.execute("rollback")
            if isinstance(why, sqlite3.Error):
                raise self._failed(why) from why
            raise
        self.told = told

    def _check_room(self, batch: _Batch, contents: List[bytes]) -> None:
        """Raises StoreError, and gives up the copy, where it would be larger than any store wants it."""
        size = self._part.whole.stat().st_size + sum(map(len, contents)) + _ROW * batch.copied
        if size > self._most:
            self._part.remove()
            raise StoreError(f"{self._store.path}: a copy of it has more than {self._most:,} bytes, and isn't made")

    def _insert(self, tiles: Tiles, contents: List[bytes]) -> int:
        """How many of the places were free."""
        numbers = map(self._number, contents)
        rows = [
            (z, x, (1 << z) - 1 - y, number)
            for (address, _), number in zip(tiles, numbers)
            for z, x, y in _places(address)
        ]
        return self._database.executemany("insert or ignore into tiles_shallow values (?, ?, ?, ?)", rows).rowcount

    def _number(self, content: bytes) -> int:
        """The number of a content, which is written if it isn't known."""
        digest = blake2b(content, digest_size=16).digest()
        number = self._kept.get(digest)
        if number is None:
            number = self._database.execute("insert into tiles_data (tile_data) values (?)", (content,)).lastrowid or 0
            if len(self._kept) >= bounds.CONTENTS:
                self._kept.clear()
            self._kept[digest] = number
        return number


def _places(address: Address) -> Iterator[Tuple[int, int, int]]:
    """The places of a tile or of a run, one by one."""
    z, x, y, _, tiles = address
    assert z is not None and x is not None and y is not None
    if tiles == 1:
        yield z, x, y
        return
    first = id_of(z, x, y)
    yield from map(place_of, range(first, first + tiles))
